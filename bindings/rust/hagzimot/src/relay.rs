//! Relays, and the answers of their runs.

use crate::error::{check, Error, Stopped, Text};
use hagzimot_sys as sys;
use std::borrow::Cow;
use std::ptr;

/// The forms of a relay's messages. By default they come framed, and go out framed and canonical.
#[derive(Clone, Copy, Debug, Default, Eq, PartialEq)]
pub struct Forms {
    /// Whether messages come packed.
    pub packed_in: bool,
    /// Whether messages go out packed.
    pub packed_out: bool,
    /// Whether messages go out as they are built, and not in canonical form.
    pub plain: bool,
}

impl Forms {
    /// Returns the flags that name the forms.
    fn flags(self) -> u32 {
        let flag = |is_set: bool, flag: u32| if is_set { flag } else { 0 };
        flag(self.packed_in, sys::HAGZIMOT_PACKED_IN)
            + flag(self.packed_out, sys::HAGZIMOT_PACKED_OUT)
            + flag(self.plain, sys::HAGZIMOT_PLAIN)
    }
}

/// The messages that were written, and the log: a line for each message that was read.
#[derive(Clone, Debug, Default, Eq, PartialEq)]
pub struct Answers {
    /// The messages that were written.
    pub out: Vec<u8>,
    /// The lines of the log. A reply may have bytes that aren't UTF-8.
    pub log: Vec<u8>,
}

impl Answers {
    /// Returns the log as text.
    pub fn log_text(&self) -> Cow<'_, str> {
        String::from_utf8_lossy(&self.log)
    }
}

/// A relay: a schema, the struct at the root of messages, calls and limits.
///
/// It is used in the thread that opened it, because nothing is proved of another thread. So it isn't `Send`:
///
/// ```compile_fail
/// fn moved<T: Send>() {}
/// moved::<hagzimot::Relay>();
/// ```
///
/// It isn't `Sync` either. Threads have relays of their own:
///
/// ```compile_fail
/// fn shared<T: Sync>() {}
/// shared::<hagzimot::Relay>();
/// ```
#[derive(Debug)]
pub struct Relay {
    // The pointer in it keeps the relay from being `Send` or `Sync`.
    handle: sys::hagzimot,
}

impl Relay {
    /// Opens a relay.
    ///
    /// `schema` is what `capnp compile -o-` writes, or a JSON schema file. `root` names a struct by its name or id; if it is
    /// empty, the root is the one struct at the top of the schema. `calls` is a calls file, which also has the limits.
    ///
    /// # Errors
    /// `Refused` if a file is refused, with the reason. `Memory` if memory is refused.
    pub fn open(schema: &[u8], root: &str, calls: &[u8], forms: Forms) -> Result<Relay, Error> {
        let mut relay = Relay { handle: sys::hagzimot { at: ptr::null_mut() } };
        let mut text = Text::new();
        // SAFETY: the handle is zeroed, the slices are valid and apart, and `text` has the room that it names.
        let status = unsafe {
            sys::hagzimot_open(
                &mut relay.handle,
                schema.as_ptr(),
                schema.len(),
                root.as_ptr(),
                root.len(),
                calls.as_ptr(),
                calls.len(),
                forms.flags(),
                text.room.as_mut_ptr(),
                text.room.len(),
                &mut text.len,
            )
        };
        if status == sys::HAGZIMOT_REFUSED {
            return Err(Error::Refused(text.into_string()));
        }
        check(status).map(|()| relay)
    }

    /// Answers messages that are one after the other, any number of them.
    ///
    /// # Errors
    /// `Framing` if the input, or the rest of it, doesn't begin with a message. `Size` if a message is too large, and
    /// `Memory` if memory is refused. [`Stopped`] has the answers to the messages before.
    pub fn relay(&mut self, messages: &[u8]) -> Result<Answers, Stopped> {
        let mut answers = Answers::default();
        match self.relay_into(messages, &mut answers) {
            Ok(()) => Ok(answers),
            Err(error) => Err(Stopped { error, answers }),
        }
    }

    /// Answers messages as [`Relay::relay`] does, into answers whose memory is used again. Their old contents are lost.
    ///
    /// # Errors
    /// As those of [`Relay::relay`]; `answers` has those to the messages before.
    pub fn relay_into(&mut self, messages: &[u8], answers: &mut Answers) -> Result<(), Error> {
        let Answers { out, log } = answers;
        out.resize(out.capacity().max(messages.len() + 256), 0);
        log.resize(log.capacity().max(256), 0);
        let (mut out_len, mut log_len) = (0, 0);
        // SAFETY: the handle is open and isn't used by another call, and the slices are valid and apart.
        let mut status = unsafe {
            sys::hagzimot_relay(
                &mut self.handle,
                messages.as_ptr(),
                messages.len(),
                out.as_mut_ptr(),
                out.len(),
                &mut out_len,
                log.as_mut_ptr(),
                log.len(),
                &mut log_len,
            )
        };
        if out_len > out.len() || log_len > log.len() {
            out.resize(out_len, 0);
            log.resize(log_len, 0);
            let taken = self.take(out, log);
            status = if status == sys::HAGZIMOT_ROOM { taken } else { status };
        }
        out.truncate(out_len);
        log.truncate(log_len);
        check(status)
    }

    /// Copies the output and the log of the last call, and returns the status.
    fn take(&mut self, out: &mut [u8], log: &mut [u8]) -> sys::hagzimot_status {
        let (mut out_len, mut log_len) = (0, 0);
        // SAFETY: as in `relay_into`.
        unsafe {
            sys::hagzimot_take(
                &mut self.handle,
                out.as_mut_ptr(),
                out.len(),
                &mut out_len,
                log.as_mut_ptr(),
                log.len(),
                &mut log_len,
            )
        }
    }

    /// Returns the record of the first message as text on one line.
    ///
    /// # Errors
    /// `Framing` if the bytes don't begin with a message. `Value` if the message has no value within the limits, or it can't
    /// be read. `Size` if it is too large to be shown, and `Memory` if memory is refused.
    pub fn show(&mut self, message: &[u8]) -> Result<String, Error> {
        let mut text = vec![0; 1024];
        let mut len = 0;
        // SAFETY: as in `relay_into`.
        let mut status = unsafe {
            sys::hagzimot_show(
                &mut self.handle,
                message.as_ptr(),
                message.len(),
                text.as_mut_ptr(),
                text.len(),
                &mut len,
            )
        };
        if status == sys::HAGZIMOT_ROOM {
            text.resize(len, 0);
            status = self.take(&mut text, &mut []);
        }
        check(status)?;
        text.truncate(len);
        Ok(String::from_utf8_lossy(&text).into_owned())
    }
}

impl Drop for Relay {
    fn drop(&mut self) {
        // SAFETY: the handle is used by no other call.
        unsafe { sys::hagzimot_close(&mut self.handle) }
    }
}
