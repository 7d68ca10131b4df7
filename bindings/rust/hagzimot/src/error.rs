//! The errors of calls.

use crate::relay::Answers;
use hagzimot_sys as sys;
use std::fmt;

/// Why a call failed.
#[derive(Clone, Debug, Eq, PartialEq)]
pub enum Error {
    /// Memory was refused, or a value is too deep for the stack.
    Memory,
    /// The schema, the calls or the renames are refused. The text is the sentence that the command prints.
    Refused(String),
    /// The input, or the rest of it, doesn't begin with a message within the limits.
    Framing,
    /// The message has no value within the limits, or it can't be read.
    Value,
    /// A message is too large to be answered or shown.
    Size,
    /// A status that this version of the crate doesn't expect.
    Other(u32),
}

impl fmt::Display for Error {
    fn fmt(&self, to: &mut fmt::Formatter<'_>) -> fmt::Result {
        match self {
            Error::Memory => to.write_str("memory: an allocation was refused, or a value is too deep"),
            Error::Refused(text) => to.write_str(text),
            Error::Framing => to.write_str("input: it doesn't begin with a message"),
            Error::Value => to.write_str("message: it has no value within the limits"),
            Error::Size => to.write_str("message: it is too large"),
            Error::Other(status) => write!(to, "libhagzimot: status {}", status),
        }
    }
}

impl std::error::Error for Error {}

/// A run of a relay that an error ended, with the answers to the messages before it.
#[derive(Clone, Debug, Eq, PartialEq)]
pub struct Stopped {
    /// Why the run ended.
    pub error: Error,
    /// The answers to the messages before.
    pub answers: Answers,
}

impl fmt::Display for Stopped {
    fn fmt(&self, to: &mut fmt::Formatter<'_>) -> fmt::Result {
        self.error.fmt(to)
    }
}

impl std::error::Error for Stopped {
    fn source(&self) -> Option<&(dyn std::error::Error + 'static)> {
        Some(&self.error)
    }
}

impl From<Stopped> for Error {
    fn from(stopped: Stopped) -> Self {
        stopped.error
    }
}

/// Returns the error of a status that isn't `HAGZIMOT_OK`.
pub(crate) fn check(status: sys::hagzimot_status) -> Result<(), Error> {
    match status {
        sys::HAGZIMOT_OK => Ok(()),
        sys::HAGZIMOT_MEMORY => Err(Error::Memory),
        sys::HAGZIMOT_FRAMING => Err(Error::Framing),
        sys::HAGZIMOT_VALUE => Err(Error::Value),
        sys::HAGZIMOT_SIZE => Err(Error::Size),
        _ => Err(Error::Other(status)),
    }
}

/// Room for the text of a call, and the length that the call writes. A longer text is cut.
pub(crate) struct Text {
    pub room: [u8; 4096],
    pub len: usize,
}

impl Text {
    pub fn new() -> Self {
        Text { room: [0; 4096], len: 0 }
    }

    pub fn into_string(self) -> String {
        String::from_utf8_lossy(&self.room[..self.len.min(self.room.len())]).into_owned()
    }
}
