//! The declarations of `chanhub.h`.

use std::borrow::Cow;
use std::ffi::c_void;
use std::os::raw::{c_char, c_int, c_uint};
use std::ptr;
use std::slice;

/// The kinds of result.
pub const SENT: u8 = 2;
pub const GOT: u8 = 3;
pub const DRAINED: u8 = 4;
pub const CLOSED: u8 = 5;
pub const DEFAULT: u8 = 6;
/// The call still waits. No call of this crate returns this.
pub const WAITING: u8 = 8;
pub const STALLED: u8 = 9;
pub const FAULT: u8 = 10;
pub const CANCELLED: u8 = 11;
pub const TIMED_OUT: u8 = 12;
/// The deadline of a call that has none.
pub const NEVER: u64 = u64::MAX;
/// The fault of a call that the journal has not, with the number of its step as the value.
pub const DIVERGED: u8 = 14;

#[repr(C)]
pub struct Chanhub {
    _private: [u8; 0],
}

#[repr(C)]
#[derive(Clone, Copy, Default)]
pub struct Value {
    pub number: u64,
    pub is_bytes: bool,
    pub length: u8,
    pub bytes: [u8; 32],
}

#[repr(C)]
#[derive(Clone, Copy)]
pub struct Told {
    pub what: u8,
    pub fault: u8,
    pub index: u8,
    pub port: u16,
    pub value: Value,
}

#[repr(C)]
#[derive(Clone, Copy)]
pub struct Case {
    pub sends: bool,
    pub port: u16,
    pub value: Value,
}

#[repr(C)]
#[derive(Clone, Copy)]
pub struct Counts {
    pub made: bool,
    pub closed: bool,
    pub cap: u32,
    pub sent: u64,
    pub received: u64,
}

/// A function that gets chapters.
pub type Chapters = unsafe extern "C" fn(pointer: *mut c_void, text: *const c_char, length: usize);

#[repr(C)]
pub struct Options {
    pub edition: c_uint,
    pub procs: c_uint,
    pub limit: u32,
    pub keep: u32,
    pub chapters: Option<Chapters>,
    pub pointer: *mut c_void,
    pub clock: bool,
    pub journal: *const c_char,
    pub journal_length: usize,
    pub goes_on: bool,
    pub asks_again: bool,
    pub journal_line: *mut u32,
    pub reserved: [*mut c_void; 4],
}

impl Options {
    /// All members are 0.
    pub fn new() -> Options {
        Options {
            edition: 0,
            procs: 0,
            limit: 0,
            keep: 0,
            chapters: None,
            pointer: ptr::null_mut(),
            clock: false,
            journal: ptr::null(),
            journal_length: 0,
            goes_on: false,
            asks_again: false,
            journal_line: ptr::null_mut(),
            reserved: [ptr::null_mut(); 4],
        }
    }
}

#[repr(C)]
pub struct Files {
    pub name: *const c_char,
    pub next: u64,
    pub error: c_int,
}

extern "C" {
    pub fn chanhub_open(
        hub: *mut *mut Chanhub,
        edition: c_uint,
        procs: c_uint,
        limit: u32,
    ) -> c_int;
    pub fn chanhub_open_endless(
        hub: *mut *mut Chanhub,
        edition: c_uint,
        procs: c_uint,
        keep: u32,
        chapters: Option<Chapters>,
        pointer: *mut c_void,
    ) -> c_int;
    pub fn chanhub_open_with(hub: *mut *mut Chanhub, options: *const Options) -> c_int;
    pub fn chanhub_has_clock(hub: *const Chanhub) -> bool;
    pub fn chanhub_free(hub: *mut Chanhub);
    pub fn chanhub_make(hub: *mut Chanhub, pid: c_uint, cap: u32) -> Told;
    pub fn chanhub_send(hub: *mut Chanhub, pid: c_uint, port: c_uint, value: Value) -> Told;
    pub fn chanhub_recv(hub: *mut Chanhub, pid: c_uint, port: c_uint) -> Told;
    pub fn chanhub_select(
        hub: *mut Chanhub,
        pid: c_uint,
        cases: *const Case,
        count: usize,
        has_default: bool,
        word: u64,
    ) -> Told;
    pub fn chanhub_select_until(
        hub: *mut Chanhub,
        pid: c_uint,
        cases: *const Case,
        count: usize,
        has_default: bool,
        word: u64,
        deadline: u64,
    ) -> Told;
    pub fn chanhub_send_all(
        hub: *mut Chanhub,
        pid: c_uint,
        port: c_uint,
        values: *const Value,
        count: usize,
        deadline: u64,
        sent: *mut usize,
    ) -> Told;
    pub fn chanhub_recv_up_to(
        hub: *mut Chanhub,
        pid: c_uint,
        port: c_uint,
        values: *mut Value,
        most: usize,
        deadline: u64,
        received: *mut usize,
    ) -> Told;
    pub fn chanhub_in(nanoseconds: u64) -> u64;
    pub fn chanhub_resume(hub: *mut Chanhub, pid: c_uint, nanoseconds: u64) -> Told;
    pub fn chanhub_close(hub: *mut Chanhub, pid: c_uint, port: c_uint) -> Told;
    pub fn chanhub_closes_with_ends(hub: *mut Chanhub, port: c_uint);
    pub fn chanhub_ends_gone(hub: *mut Chanhub, port: c_uint) -> bool;
    pub fn chanhub_exit(hub: *mut Chanhub, pid: c_uint) -> Told;
    pub fn chanhub_start(hub: *mut Chanhub, pid: c_uint, other: c_uint) -> Told;
    pub fn chanhub_reopen(hub: *mut Chanhub, pid: c_uint, port: c_uint, cap: u32) -> Told;
    pub fn chanhub_cancel(hub: *mut Chanhub, pid: c_uint, other: c_uint) -> Told;
    pub fn chanhub_cut(hub: *mut Chanhub) -> bool;
    pub fn chanhub_look(hub: *mut Chanhub, port: c_uint) -> Counts;
    pub fn chanhub_steps_left(hub: *mut Chanhub) -> u64;
    pub fn chanhub_journal(hub: *mut Chanhub, length: *mut usize) -> *mut c_char;
    pub fn chanhub_before(hub: *mut Chanhub, length: *mut usize) -> *mut c_char;
    pub fn chanhub_divergence(hub: *mut Chanhub, length: *mut usize) -> *mut c_char;
    pub fn chanhub_free_text(text: *mut c_char);
    pub fn chanhub_write_chapter(files: *mut Files, text: *const c_char, length: usize);
}

/// Returns a text of the library, or `None` for NULL.
///
/// # Safety
///
/// Unless it is NULL, the text must have `length` bytes, and must not be freed or changed before what this returns is dropped.
pub unsafe fn text_of<'a>(text: *const c_char, length: usize) -> Option<Cow<'a, str>> {
    if text.is_null() {
        return None;
    }
    Some(String::from_utf8_lossy(slice::from_raw_parts(
        text.cast(),
        length,
    )))
}
