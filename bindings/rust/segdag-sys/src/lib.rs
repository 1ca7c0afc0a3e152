//! The calls of libsegdag, as `segdag.h` has them, which says what each does. The crate `segdag` is what to use.
#![no_std]
#![allow(non_camel_case_types)]
use core::ffi::{c_char, c_int, c_uint, c_void};

/// An open log.
#[repr(C)]
pub struct segdag_store {
    _private: [u8; 0],
}

/// The members of an expression.
#[repr(C)]
pub struct segdag_cursor {
    _private: [u8; 0],
}

pub type segdag_code = c_int;

#[repr(C)]
#[derive(Clone, Copy, PartialEq, Eq)]
pub struct segdag_id {
    pub id: [u8; 20],
}

#[repr(C)]
pub struct segdag_error {
    pub code: segdag_code,
    pub system: c_int,
    pub call: *const c_char,
    pub has_id: bool,
    pub id: segdag_id,
    pub text: [c_char; 512],
}

pub type segdag_stage = c_int;

pub const SEGDAG_STAGE_LOCK: segdag_stage = 1;
pub const SEGDAG_STAGE_READ: segdag_stage = 2;
pub const SEGDAG_STAGE_LOAD: segdag_stage = 3;
pub const SEGDAG_STAGE_ANSWER: segdag_stage = 4;

#[repr(C)]
pub struct segdag_progress {
    pub stage: segdag_stage,
    pub done: u64,
    pub whole: u64,
}

pub type segdag_progress_call =
    Option<unsafe extern "C" fn(progress: *const segdag_progress, context: *mut c_void) -> bool>;

#[repr(C)]
pub struct segdag_open_options {
    pub size: usize,
    pub flags: u32,
    pub wait: u32,
    pub cache: u32,
    pub most_bytes: u64,
    pub progress: segdag_progress_call,
    pub context: *mut c_void,
}

pub const SEGDAG_OPEN_CREATE: u32 = 1;
pub const SEGDAG_OPEN_READ_ONLY: u32 = 2;
pub const SEGDAG_OPEN_FOLLOW: u32 = 4;
pub const SEGDAG_OPEN_ANY_FILE: u32 = 8;
pub const SEGDAG_FOREVER: u32 = u32::MAX;
pub const SEGDAG_OTHERS: u64 = 1 << 56;

#[repr(C)]
pub struct segdag_text {
    pub bytes: *mut c_char,
    pub size: usize,
    pub room: usize,
}

#[repr(C)]
pub struct segdag_ids {
    pub ids: *mut segdag_id,
    pub count: usize,
    pub room: usize,
}

#[repr(C)]
pub struct segdag_sizes {
    pub size: usize,
    pub master: u64,
    pub others: u64,
    pub pending: u64,
}

#[repr(C)]
#[derive(Clone, Copy)]
pub struct segdag_pair {
    pub left: segdag_id,
    pub right: segdag_id,
}

#[repr(C)]
#[derive(Clone, Copy, Default)]
pub struct segdag_distance {
    pub ahead: u64,
    pub behind: u64,
}

extern "C" {
    pub fn segdag_version() -> *const c_char;
    pub fn segdag_code_name(code: segdag_code) -> *const c_char;
    pub fn segdag_code_text(code: segdag_code) -> *const c_char;
    pub fn segdag_last_error() -> *const segdag_error;

    pub fn segdag_store_open(
        path: *const c_char,
        options: *const segdag_open_options,
        store: *mut *mut segdag_store,
    ) -> segdag_code;
    pub fn segdag_store_follow(
        store: *mut segdag_store,
        follower: *mut *mut segdag_store,
    ) -> segdag_code;
    pub fn segdag_store_close(store: *mut segdag_store);
    pub fn segdag_store_refresh(store: *mut segdag_store, changes: *mut u64) -> segdag_code;
    pub fn segdag_store_line(
        store: *mut segdag_store,
        line: *const c_char,
        size: usize,
        reply: *mut segdag_text,
    ) -> segdag_code;
    pub fn segdag_text_free(text: *mut segdag_text);
    pub fn segdag_mirror_add(store: *mut segdag_store, word: *const c_char) -> segdag_code;

    pub fn segdag_session_sizes(
        store: *mut segdag_store,
        session: c_uint,
        sizes: *mut segdag_sizes,
    ) -> segdag_code;
    pub fn segdag_session_flush(
        store: *mut segdag_store,
        session: c_uint,
        heads: *const segdag_id,
        count: usize,
        sizes: *mut segdag_sizes,
    ) -> segdag_code;
    pub fn segdag_session_strip(
        store: *mut segdag_store,
        session: c_uint,
        ids: *const segdag_id,
        count: usize,
        sizes: *mut segdag_sizes,
    ) -> segdag_code;
    pub fn segdag_session_clone(
        store: *mut segdag_store,
        session: c_uint,
        sizes: *mut segdag_sizes,
    ) -> segdag_code;
    pub fn segdag_session_pull(
        store: *mut segdag_store,
        session: c_uint,
        sizes: *mut segdag_sizes,
    ) -> segdag_code;
    pub fn segdag_session_reload(
        store: *mut segdag_store,
        session: c_uint,
        pending: *mut u64,
    ) -> segdag_code;
    pub fn segdag_session_discard(
        store: *mut segdag_store,
        session: c_uint,
        pending: *mut u64,
    ) -> segdag_code;

    pub fn segdag_commit_add(
        store: *mut segdag_store,
        session: c_uint,
        id: *const segdag_id,
        parents: *const segdag_id,
        count: usize,
        number: *mut u64,
    ) -> segdag_code;
    pub fn segdag_commit_number(
        store: *mut segdag_store,
        session: c_uint,
        id: *const segdag_id,
        number: *mut u64,
    ) -> segdag_code;
    pub fn segdag_commit_id(
        store: *mut segdag_store,
        session: c_uint,
        number: u64,
        id: *mut segdag_id,
    ) -> segdag_code;
    pub fn segdag_commit_is_ancestor(
        store: *mut segdag_store,
        session: c_uint,
        a: *const segdag_id,
        b: *const segdag_id,
        is: *mut bool,
    ) -> segdag_code;
    pub fn segdag_ids_free(ids: *mut segdag_ids);
    pub fn segdag_commit_merge_bases(
        store: *mut segdag_store,
        session: c_uint,
        a: *const segdag_id,
        b: *const segdag_id,
        bases: *mut segdag_ids,
    ) -> segdag_code;
    pub fn segdag_commit_ahead_behind(
        store: *mut segdag_store,
        session: c_uint,
        pairs: *const segdag_pair,
        count: usize,
        distances: *mut segdag_distance,
        done: *mut usize,
    ) -> segdag_code;

    pub fn segdag_query_count(
        store: *mut segdag_store,
        session: c_uint,
        expression: *const c_char,
        size: usize,
        count: *mut u64,
    ) -> segdag_code;
    pub fn segdag_query_ids(
        store: *mut segdag_store,
        session: c_uint,
        expression: *const c_char,
        size: usize,
        members: *mut segdag_ids,
    ) -> segdag_code;
    pub fn segdag_query_open(
        store: *mut segdag_store,
        session: c_uint,
        expression: *const c_char,
        size: usize,
        cursor: *mut *mut segdag_cursor,
    ) -> segdag_code;
    pub fn segdag_cursor_next(
        cursor: *mut segdag_cursor,
        ids: *mut segdag_id,
        room: usize,
        count: *mut usize,
    ) -> segdag_code;
    pub fn segdag_cursor_left(cursor: *const segdag_cursor) -> u64;
    pub fn segdag_cursor_close(cursor: *mut segdag_cursor);
}
