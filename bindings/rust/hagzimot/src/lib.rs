//! Relays, shows and compares Cap'n Proto messages in your process, by the proved code of libhagzimot.
//!
//! [`Relay`] edits messages under a schema. [`canonical`], [`is_canonical`] and [`first_break`] need no relay.
//! `hagzimot.h` has the interface below, and the crate `hagzimot-sys` its declarations.

mod error;
mod relay;

pub use error::{Error, Stopped};
pub use relay::{Answers, Forms, Relay};

use hagzimot_sys as sys;

/// The README's example is compiled and run with the tests.
#[cfg(doctest)]
#[doc = include_str!("../../README.md")]
struct Readme;

/// The limits of following a message.
#[derive(Clone, Copy, Debug, Eq, PartialEq)]
pub struct Limits {
    /// The most words that a message has, and that following its pointers costs.
    pub words: u32,
    /// The most levels of pointers.
    pub levels: u32,
}

impl Default for Limits {
    fn default() -> Self {
        Limits { words: 8_388_608, levels: 64 }
    }
}

/// Returns the version of the library's interface.
pub fn version() -> u32 {
    // SAFETY: the function takes nothing.
    unsafe { sys::hagzimot_version() }
}

/// Writes the canonical form of the first message into cells, and returns the status and the number of words.
fn canonical_into(message: &[u8], limits: Limits, cells: &mut [[u8; 8]]) -> (sys::hagzimot_status, usize) {
    let mut words = 0;
    // SAFETY: the slices are valid and apart, and `words` is a place of its own.
    let status = unsafe {
        sys::hagzimot_canonical(
            message.as_ptr(),
            message.len(),
            limits.words,
            limits.levels,
            cells.as_mut_ptr(),
            cells.len(),
            &mut words,
        )
    };
    (status, words)
}

/// Returns the canonical form of the first message, framed.
///
/// # Errors
/// `Framing` if the bytes don't begin with a message within the limits. `Value` if the message has no value within them.
pub fn canonical(message: &[u8], limits: Limits) -> Result<Vec<u8>, Error> {
    // No form within the limits is longer.
    let most = limits.words as usize + 2;
    let mut room = (message.len() / 8 + 2).min(most);
    loop {
        let mut cells = vec![[0; 8]; room];
        let (status, words) = canonical_into(message, limits, &mut cells);
        if status != sys::HAGZIMOT_ROOM || room == most {
            error::check(status)?;
            return Ok(cells[..words].concat());
        }
        room = (2 * room).min(most);
    }
}

/// Returns whether the first message is canonical.
///
/// # Errors
/// As those of [`canonical`].
pub fn is_canonical(message: &[u8], limits: Limits) -> Result<bool, Error> {
    // SAFETY: the slice is valid.
    let status = unsafe { sys::hagzimot_is_canonical(message.as_ptr(), message.len(), limits.words, limits.levels) };
    if status == sys::HAGZIMOT_NO {
        return Ok(false);
    }
    error::check(status).map(|()| true)
}

/// Returns the sentence of the first break between two versions of a schema; `None` if they are compatible.
///
/// A schema is what `capnp compile -o-` writes, or a JSON schema file. `root` names a struct of both; if it is empty, the
/// root is the one struct at the top. `renames` is a renames file, or empty.
///
/// # Errors
/// `Refused` if the versions aren't compared, with the reason. `Memory` if memory is refused.
pub fn first_break(older: &[u8], newer: &[u8], root: &str, renames: &[u8]) -> Result<Option<String>, Error> {
    let mut text = error::Text::new();
    // SAFETY: the slices are valid and apart, and `text` has the room that it names.
    let status = unsafe {
        sys::hagzimot_compatible(
            older.as_ptr(),
            older.len(),
            newer.as_ptr(),
            newer.len(),
            renames.as_ptr(),
            renames.len(),
            root.as_ptr(),
            root.len(),
            text.room.as_mut_ptr(),
            text.room.len(),
            &mut text.len,
        )
    };
    match status {
        sys::HAGZIMOT_NO => Ok(Some(text.into_string())),
        sys::HAGZIMOT_REFUSED => Err(Error::Refused(text.into_string())),
        _ => error::check(status).map(|()| None),
    }
}
