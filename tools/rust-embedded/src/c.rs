//! The functions of persist.h. `.ci/embedded` compares that page with the sources; this one is compared with nothing but the tests.
use std::ffi::c_void;

/// A session, or none where it is null.
#[repr(C)]
pub(crate) struct Handle {
    pub(crate) at: *mut c_void,
}

/// What came of a line or call.
#[repr(C)]
#[derive(Default)]
pub(crate) struct Reply {
    pub(crate) kind: u32,
    pub(crate) detail: u32,
    pub(crate) number: u64,
    pub(crate) printed: usize,
    pub(crate) length: usize,
}

pub(crate) const DONE: i32 = 0;
pub(crate) const REFUSED: i32 = 4;
pub(crate) const NO_MEMORY: i32 = 6;

extern "C" {
    pub(crate) fn persist_open(p: *mut Handle, text: *const u8, length: usize, fault: *mut u8, room: usize, told: *mut usize) -> i32;
    pub(crate) fn persist_resume(p: *mut Handle, image: *const u8, length: usize, used: *mut usize, rule: *mut u32) -> i32;
    pub(crate) fn persist_line(p: *mut Handle, line: *const u8, length: usize, reply: *mut Reply) -> i32;
    pub(crate) fn persist_run(p: *mut Handle, version: u32, name: *const u8, length: usize, numbers: *const i64, count: usize, reply: *mut Reply) -> i32;
    pub(crate) fn persist_query(p: *mut Handle, version: u32, name: *const u8, length: usize, numbers: *const i64, count: usize, reply: *mut Reply) -> i32;
    pub(crate) fn persist_text(p: *mut Handle, from: usize, out: *mut u8, room: usize) -> usize;
    pub(crate) fn persist_printed(p: *mut Handle, from: usize, out: *mut i64, room: usize) -> usize;
    pub(crate) fn persist_dump(p: *mut Handle, version: u32, length: *mut usize) -> i32;
    pub(crate) fn persist_changed(p: *mut Handle, version: u32, path: *const u8, length: usize, made: *mut usize) -> i32;
    pub(crate) fn persist_image(p: *mut Handle, length: *mut usize) -> i32;
    pub(crate) fn persist_close(p: *mut Handle);
}
