//! The declarations of `hagzimot.h`, where each function has its statuses. The crate `hagzimot` is a safe interface over them.
#![no_std]
#![allow(non_camel_case_types)]

use core::ffi::c_void;

/// The version of the header that these declarations follow.
pub const HAGZIMOT_VERSION: u32 = 1;

/// The result of a call.
pub type hagzimot_status = u32;

/// The call is done.
pub const HAGZIMOT_OK: hagzimot_status = 0;
/// malloc refused memory, or a value is too deep for the stack.
pub const HAGZIMOT_MEMORY: hagzimot_status = 1;
/// The handle holds nothing.
pub const HAGZIMOT_CLOSED: hagzimot_status = 2;
/// The handle holds something already.
pub const HAGZIMOT_OPEN: hagzimot_status = 3;
/// The output is too short; its length says how much is needed.
pub const HAGZIMOT_ROOM: hagzimot_status = 4;
/// The schema, the calls or the renames are refused; the text says why.
pub const HAGZIMOT_REFUSED: hagzimot_status = 5;
/// The input, or the rest of it, doesn't begin with a message.
pub const HAGZIMOT_FRAMING: hagzimot_status = 6;
/// The message has no value within the limits, or it can't be read.
pub const HAGZIMOT_VALUE: hagzimot_status = 7;
/// A message is too large.
pub const HAGZIMOT_SIZE: hagzimot_status = 8;
/// The answer is no.
pub const HAGZIMOT_NO: hagzimot_status = 9;
/// A flag is unknown, or the root's name is not UTF-8.
pub const HAGZIMOT_FORM: hagzimot_status = 10;
/// A pointer is NULL where it must not be, or memory that is written overlaps other memory of the call.
pub const HAGZIMOT_POINTER: hagzimot_status = 11;

/// Messages come packed.
pub const HAGZIMOT_PACKED_IN: u32 = 1;
/// Messages go out packed.
pub const HAGZIMOT_PACKED_OUT: u32 = 2;
/// Messages go out as they are built, and not in canonical form.
pub const HAGZIMOT_PLAIN: u32 = 4;

/// A handle: all zeros before its first use, and never copied.
#[repr(C)]
#[derive(Debug)]
pub struct hagzimot {
    /// Memory of the library.
    pub at: *mut c_void,
}

extern "C" {
    pub fn hagzimot_version() -> u32;

    pub fn hagzimot_open(
        handle: *mut hagzimot,
        schema: *const u8,
        schema_len: usize,
        root: *const u8,
        root_len: usize,
        calls: *const u8,
        calls_len: usize,
        flags: u32,
        text: *mut u8,
        text_cap: usize,
        text_len: *mut usize,
    ) -> hagzimot_status;

    pub fn hagzimot_close(handle: *mut hagzimot);

    pub fn hagzimot_relay(
        handle: *mut hagzimot,
        input: *const u8,
        input_len: usize,
        out: *mut u8,
        out_cap: usize,
        out_len: *mut usize,
        log: *mut u8,
        log_cap: usize,
        log_len: *mut usize,
    ) -> hagzimot_status;

    pub fn hagzimot_take(
        handle: *mut hagzimot,
        out: *mut u8,
        out_cap: usize,
        out_len: *mut usize,
        log: *mut u8,
        log_cap: usize,
        log_len: *mut usize,
    ) -> hagzimot_status;

    pub fn hagzimot_show(
        handle: *mut hagzimot,
        input: *const u8,
        input_len: usize,
        out: *mut u8,
        out_cap: usize,
        out_len: *mut usize,
    ) -> hagzimot_status;

    pub fn hagzimot_canonical(
        input: *const u8,
        input_len: usize,
        words: u32,
        levels: u32,
        out: *mut [u8; 8],
        out_words: usize,
        words_len: *mut usize,
    ) -> hagzimot_status;

    pub fn hagzimot_is_canonical(input: *const u8, input_len: usize, words: u32, levels: u32) -> hagzimot_status;

    pub fn hagzimot_compatible(
        older: *const u8,
        older_len: usize,
        newer: *const u8,
        newer_len: usize,
        renames: *const u8,
        renames_len: usize,
        root: *const u8,
        root_len: usize,
        text: *mut u8,
        text_cap: usize,
        text_len: *mut usize,
    ) -> hagzimot_status;
}
