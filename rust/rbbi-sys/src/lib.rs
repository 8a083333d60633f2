//! The calls of `rbbi.h`, which documents them, and what they take and answer. The crate `rbbi` is
//! the safe interface over this one.
#![no_std]
#![allow(non_camel_case_types)]

use core::ffi::{c_char, c_int, c_void};

/// A handle: a pointer, which begins as NULL. Each kind of handle is one in C too.
#[repr(C)]
#[derive(Debug)]
pub struct rbbi_handle {
    pub held: *mut c_void,
}

/// A handle that holds nothing.
pub const RBBI_INIT: rbbi_handle = rbbi_handle {
    held: core::ptr::null_mut(),
};

/// A fault of rules, a property file or a table file.
#[repr(C)]
#[derive(Clone, Copy, Debug)]
pub struct rbbi_fault {
    pub name: [c_char; 40],
    pub line: u32,
    pub column: u32,
    pub byte: u32,
}

/// What an edit changed.
#[repr(C)]
#[derive(Clone, Copy, Debug)]
pub struct rbbi_change {
    pub from: u32,
    pub old_to: u32,
    pub new_to: u32,
}

pub const RBBI_OK: c_int = 0;
pub const RBBI_DONE: c_int = 1;
pub const RBBI_NULL: c_int = 2;
pub const RBBI_HANDLE: c_int = 3;
pub const RBBI_UNIT: c_int = 4;
pub const RBBI_OUTSIDE: c_int = 5;
pub const RBBI_INSIDE: c_int = 6;
pub const RBBI_TOO_LONG: c_int = 7;
pub const RBBI_NOT_UTF8: c_int = 8;
pub const RBBI_MEMORY: c_int = 9;
pub const RBBI_ROOM: c_int = 10;
pub const RBBI_FAULT: c_int = 11;
pub const RBBI_NAME: c_int = 12;
pub const RBBI_LONE: c_int = 13;
pub const RBBI_FILTERED: c_int = 14;

pub const RBBI_CHARS: c_int = 0;
pub const RBBI_UTF8: c_int = 1;
pub const RBBI_UTF16: c_int = 2;

extern "C" {
    pub fn rbbi_message(answer: c_int) -> *const c_char;
    pub fn rbbi_fault_message(fault: *const rbbi_fault) -> *const c_char;
    pub fn rbbi_version() -> *const c_char;
    pub fn rbbi_unicode_version() -> *const c_char;

    pub fn rbbi_files_open(files: *mut rbbi_handle) -> c_int;
    pub fn rbbi_files_add(
        files: *mut rbbi_handle,
        property: *const c_char,
        bytes: *const c_void,
        length: usize,
        fault: *mut rbbi_fault,
    ) -> c_int;
    pub fn rbbi_files_close(files: *mut rbbi_handle);

    pub fn rbbi_table_compile(
        table: *mut rbbi_handle,
        files: *mut rbbi_handle,
        rules: *const c_void,
        length: usize,
        ignore_dictionary: c_int,
        fault: *mut rbbi_fault,
    ) -> c_int;
    pub fn rbbi_table_load(
        table: *mut rbbi_handle,
        bytes: *const c_void,
        length: usize,
        fault: *mut rbbi_fault,
    ) -> c_int;
    pub fn rbbi_table_named(table: *mut rbbi_handle, name: *const c_char) -> c_int;
    pub fn rbbi_table_share(other: *mut rbbi_handle, table: *mut rbbi_handle) -> c_int;
    pub fn rbbi_table_write(
        table: *mut rbbi_handle,
        room: *mut c_void,
        size: usize,
        length: *mut usize,
    ) -> c_int;
    pub fn rbbi_table_close(table: *mut rbbi_handle);

    pub fn rbbi_breaks(
        table: *mut rbbi_handle,
        text: *const c_char,
        length: usize,
        from: u64,
        places: *mut u64,
        statuses: *mut u32,
        room: usize,
        count: *mut usize,
        resume: *mut u64,
    ) -> c_int;
    pub fn rbbi_words(
        table: *mut rbbi_handle,
        text: *const c_char,
        length: usize,
        from: u64,
        starts: *mut u64,
        ends: *mut u64,
        statuses: *mut u32,
        room: usize,
        count: *mut usize,
        resume: *mut u64,
    ) -> c_int;

    pub fn rbbi_scan_open(
        scan: *mut rbbi_handle,
        table: *mut rbbi_handle,
        unit: c_int,
        only_words: c_int,
    ) -> c_int;
    pub fn rbbi_scan_feed(
        scan: *mut rbbi_handle,
        piece: *const c_char,
        length: usize,
        is_last: c_int,
    ) -> c_int;
    pub fn rbbi_scan_feed_utf16(
        scan: *mut rbbi_handle,
        piece: *const u16,
        length: usize,
        is_last: c_int,
    ) -> c_int;
    pub fn rbbi_scan_next(
        scan: *mut rbbi_handle,
        starts: *mut u64,
        ends: *mut u64,
        statuses: *mut u32,
        room: usize,
        count: *mut usize,
        place: *mut u64,
    ) -> c_int;
    pub fn rbbi_scan_close(scan: *mut rbbi_handle);

    pub fn rbbi_session_open(
        session: *mut rbbi_handle,
        table: *mut rbbi_handle,
        text: *const c_char,
        length: usize,
        unit: c_int,
    ) -> c_int;
    pub fn rbbi_session_open_utf16(
        session: *mut rbbi_handle,
        table: *mut rbbi_handle,
        text: *const u16,
        length: usize,
        unit: c_int,
        lone: *mut u32,
    ) -> c_int;
    pub fn rbbi_session_fork(session: *mut rbbi_handle, copy: *mut rbbi_handle) -> c_int;
    pub fn rbbi_session_suppress(
        session: *mut rbbi_handle,
        list: *const c_void,
        length: usize,
        fault: *mut rbbi_fault,
    ) -> c_int;
    pub fn rbbi_session_tailor(
        session: *mut rbbi_handle,
        pairs: *const c_void,
        length: usize,
        fault: *mut rbbi_fault,
    ) -> c_int;
    pub fn rbbi_session_close(session: *mut rbbi_handle);
    pub fn rbbi_session_replace(
        session: *mut rbbi_handle,
        at: u32,
        remove: u32,
        insert: *const c_char,
        length: usize,
    ) -> c_int;
    pub fn rbbi_session_replace_changed(
        session: *mut rbbi_handle,
        at: u32,
        remove: u32,
        insert: *const c_char,
        length: usize,
        change: *mut rbbi_change,
    ) -> c_int;
    pub fn rbbi_session_redraw(
        session: *mut rbbi_handle,
        change: *const rbbi_change,
        from: *mut u32,
        to: *mut u32,
    ) -> c_int;
    pub fn rbbi_session_replace_utf16(
        session: *mut rbbi_handle,
        at: u32,
        remove: u32,
        insert: *const u16,
        length: usize,
        lone: *mut u32,
    ) -> c_int;
    pub fn rbbi_session_text(
        session: *mut rbbi_handle,
        from: u32,
        to: u32,
        room: *mut c_char,
        size: usize,
        length: *mut usize,
    ) -> c_int;
    pub fn rbbi_session_length(session: *mut rbbi_handle, length: *mut u32) -> c_int;
    pub fn rbbi_session_first(session: *mut rbbi_handle, place: *mut u32) -> c_int;
    pub fn rbbi_session_last(session: *mut rbbi_handle, place: *mut u32) -> c_int;
    pub fn rbbi_session_next(session: *mut rbbi_handle, place: *mut u32) -> c_int;
    pub fn rbbi_session_previous(session: *mut rbbi_handle, place: *mut u32) -> c_int;
    pub fn rbbi_session_following(session: *mut rbbi_handle, from: u32, place: *mut u32) -> c_int;
    pub fn rbbi_session_preceding(session: *mut rbbi_handle, from: u32, place: *mut u32) -> c_int;
    pub fn rbbi_session_is_boundary(session: *mut rbbi_handle, at: u32, is: *mut u32) -> c_int;
    pub fn rbbi_session_current(session: *mut rbbi_handle, place: *mut u32) -> c_int;
    pub fn rbbi_session_status(session: *mut rbbi_handle, status: *mut u32) -> c_int;
    pub fn rbbi_session_statuses(
        session: *mut rbbi_handle,
        room: *mut u32,
        size: usize,
        count: *mut usize,
    ) -> c_int;
    pub fn rbbi_session_boundaries(
        session: *mut rbbi_handle,
        from: u32,
        to: u32,
        places: *mut u32,
        statuses: *mut u32,
        room: usize,
        count: *mut usize,
        resume: *mut u32,
    ) -> c_int;
    pub fn rbbi_session_boundaries_before(
        session: *mut rbbi_handle,
        from: u32,
        to: u32,
        places: *mut u32,
        statuses: *mut u32,
        room: usize,
        count: *mut usize,
        resume: *mut u32,
    ) -> c_int;
    pub fn rbbi_session_segment(
        session: *mut rbbi_handle,
        at: u32,
        from: *mut u32,
        to: *mut u32,
        status: *mut u32,
    ) -> c_int;

    pub fn rbbi_tally_open(
        tally: *mut rbbi_handle,
        table: *mut rbbi_handle,
        text: *const c_char,
        length: usize,
        unit: c_int,
    ) -> c_int;
    pub fn rbbi_tally_close(tally: *mut rbbi_handle);
    pub fn rbbi_tally_replace(
        tally: *mut rbbi_handle,
        at: u32,
        remove: u32,
        insert: *const c_char,
        length: usize,
    ) -> c_int;
    pub fn rbbi_tally_segments(tally: *mut rbbi_handle, count: *mut u32) -> c_int;
    pub fn rbbi_tally_count(tally: *mut rbbi_handle, status: u32, count: *mut u32) -> c_int;
    pub fn rbbi_tally_each(
        tally: *mut rbbi_handle,
        statuses: *mut u32,
        counts: *mut u32,
        room: usize,
        count: *mut usize,
    ) -> c_int;
}
