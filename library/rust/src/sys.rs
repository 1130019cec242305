//! What `include/fstch.h` and `include/fstch_cache.h` declare, by their own names. `tests/agreeing.rs` compares them.

#![allow(non_camel_case_types)] // (the headers')

use std::os::raw::{c_char, c_void};

/// A store that is open, or none.
#[repr(C)]
pub struct fstch_store {
    is_open: bool,
    at: *mut c_void,
}

/// A cache that is open, or none.
#[repr(C)]
pub struct fstch_cache {
    is_open: bool,
    at: *mut c_void,
}

/// What a store holds, and what its syncs have done.
#[repr(C)]
#[derive(Default)]
pub struct fstch_statistics {
    pub keys: u32,
    pub unsynced: u32,
    pub live_bytes: u64,
    pub file_bytes: u64,
    pub extents: u32,
    pub empty_extents: u32,
    pub syncs: u64,
    pub waves: u64,
}

// (as the headers say, and Rust's usize is C's size_t)
const _: () = assert!(std::mem::size_of::<fstch_store>() == 16 && std::mem::size_of::<usize>() == 8);
const _: () = assert!(std::mem::size_of::<fstch_cache>() == 16);

pub const FSTCH_CLOSED: fstch_store = fstch_store { is_open: false, at: std::ptr::null_mut() };
pub const CLOSED_CACHE: fstch_cache = fstch_cache { is_open: false, at: std::ptr::null_mut() };

pub const FSTCH_VERSION: u32 = 400;
pub const FSTCH_WRITERS: u32 = 7;
pub const FSTCH_NO_WRITER: u32 = u32::MAX;
pub const FSTCH_MAX_KEY: usize = 32;
pub const FSTCH_MAX_VALUE: usize = 131072;
pub const FSTCH_NO_BARRIERS: u32 = 1;
pub const FSTCH_READ_ONLY: u32 = 2;
pub const FSTCH_MANUAL: u32 = 4;

pub const FSTCH_DONE: i32 = 0;
pub const FSTCH_OUT_OF_MEMORY: i32 = 1;
pub const FSTCH_DISK: i32 = 4;
pub const FSTCH_FILE_SIZE: i32 = 5;
pub const FSTCH_NUMBERS_SPENT: i32 = 17;
pub const FSTCH_TOO_MANY_LIVE: i32 = 18;
pub const FSTCH_NO_SUCH_GROUP: i32 = 27;
pub const FSTCH_SAME_GROUP: i32 = 28;
pub const FSTCH_STARTED: i32 = 29;
pub const FSTCH_SEALED: i32 = 30;
pub const FSTCH_ENGAGED: i32 = 31;
pub const FSTCH_NOT_ENGAGED: i32 = 32;
pub const FSTCH_TOO_MANY_GROUPS: i32 = 33;
pub const FSTCH_NO_SUCH_EXTENT: i32 = 34;
pub const FSTCH_GENERATION_SPENT: i32 = 38;
pub const FSTCH_KEY_LENGTH: i32 = 39;
pub const FSTCH_VALUE_LENGTH: i32 = 40;
pub const FSTCH_NO_KEY: i32 = 41;
pub const FSTCH_INDEX_FULL: i32 = 42;
pub const FSTCH_NO_SPACE: i32 = 43;
pub const FSTCH_OPEN_EXTENT: i32 = 44;
pub const FSTCH_EMPTY_EXTENT: i32 = 45;
pub const FSTCH_GEOMETRY: i32 = 46;
pub const FSTCH_BAD_SUPER: i32 = 47;
pub const FSTCH_BAD_POINTER: i32 = 48;
pub const FSTCH_BAD_SLOT: i32 = 49;
pub const FSTCH_BAD_FRAME: i32 = 50;
pub const FSTCH_DUPLICATE_KEY: i32 = 51;
pub const FSTCH_DEVICE_GAVE_UP: i32 = 57;
pub const FSTCH_NOT_OPEN: i32 = -1;
pub const FSTCH_IS_OPEN: i32 = -2;
pub const FSTCH_BUFFER_TOO_SMALL: i32 = -4;
pub const FSTCH_ABSENT: i32 = -5;
pub const FSTCH_IN_USE: i32 = -6;
pub const FSTCH_NO_SYNC: i32 = -7;
pub const FSTCH_BAD_WRITER: i32 = -8;
pub const FSTCH_IS_READ_ONLY: i32 = -9;

pub const FSTCH_BLOCK: usize = 4096;
pub const FSTCH_MAX_BLOCKS: u32 = 16777216;
pub const FSTCH_MAX_LIVE: u32 = 65536;
pub const FSTCH_MARK_MEMORY: u32 = 0;
pub const FSTCH_MARK_FLIGHT: u32 = 1;
pub const FSTCH_MARK_DURABLE: u32 = 2;
pub const FSTCH_MAY_DROP: u32 = 1;

pub const FSTCH_NO_SUCH_BLOCK: i32 = 2;
pub const FSTCH_UNKNOWN: i32 = 6;
pub const FSTCH_DURABLE: i32 = 7;
pub const FSTCH_IN_FLIGHT: i32 = 8;
pub const FSTCH_HARD: i32 = 9;
pub const FSTCH_ALREADY_TAKEN: i32 = 10;
pub const FSTCH_DEPENDENT_APPLIED: i32 = 11;
pub const FSTCH_EMPTY_PATCH: i32 = 14;
pub const FSTCH_OUT_OF_BLOCK: i32 = 15;
pub const FSTCH_UNKNOWN_DEPENDENCY: i32 = 16;
pub const FSTCH_NOT_IN_MEMORY: i32 = 19;
pub const FSTCH_SAME: i32 = 20;
pub const FSTCH_OTHER_BLOCK: i32 = 21;
pub const FSTCH_APART: i32 = 22;
pub const FSTCH_WOULD_CYCLE: i32 = 23;
pub const FSTCH_ALREADY_IN_FLIGHT: i32 = 24;
pub const FSTCH_NOTHING_READY: i32 = 25;
pub const FSTCH_STRANGER: i32 = 26;
pub const FSTCH_LIVE: i32 = 62;
pub const FSTCH_NOT_RESIDENT: i32 = 63;
pub const FSTCH_IS_RESIDENT: i32 = -20;

/// The room that every text of an answer has enough of: 63 bytes at most, and the 0 byte behind them.
pub const TEXT_ROOM: usize = 64;

#[rustfmt::skip] // (a call on a line)
extern "C" {
    pub fn fstch_make(path: *const c_char, index_blocks: u32, extents: u32, extent_blocks: u32) -> i32;
    pub fn fstch_open(store: *mut fstch_store, path: *const c_char, slot: *mut u32) -> i32;
    pub fn fstch_open_with(store: *mut fstch_store, path: *const c_char, flags: u32, slot: *mut u32) -> i32;
    pub fn fstch_close(store: *mut fstch_store) -> i32;
    pub fn fstch_is_open(store: *const fstch_store) -> bool;
    pub fn fstch_sync(store: *mut fstch_store) -> i32;
    pub fn fstch_put(store: *mut fstch_store, writer: u32, key: *const c_void, key_length: usize, value: *const c_void, value_length: usize) -> i32;
    pub fn fstch_get(store: *const fstch_store, key: *const c_void, key_length: usize, into: *mut c_void, into_length: usize, length: *mut usize) -> i32;
    pub fn fstch_delete(store: *mut fstch_store, writer: u32, key: *const c_void, key_length: usize) -> i32;
    pub fn fstch_reclaim(store: *mut fstch_store, extent: u32) -> i32;
    pub fn fstch_check(store: *const fstch_store, entries: *mut u32, extents: *mut u32) -> i32;
    pub fn fstch_entry(store: *const fstch_store, number: u32, key: *mut c_void, key_room: usize, key_length: *mut usize, value_length: *mut usize) -> i32;
    pub fn fstch_next(store: *const fstch_store, from: *const c_void, from_length: usize, key: *mut c_void, key_room: usize, key_length: *mut usize, value_length: *mut usize) -> i32;
    pub fn fstch_previous(store: *const fstch_store, before: *const c_void, before_length: usize, key: *mut c_void, key_room: usize, key_length: *mut usize, value_length: *mut usize) -> i32;
    pub fn fstch_last(store: *const fstch_store, key: *mut c_void, key_room: usize, key_length: *mut usize, value_length: *mut usize) -> i32;
    pub fn fstch_extent(store: *const fstch_store, extent: u32, live: *mut u32, filled: *mut u32) -> i32;
    pub fn fstch_unsynced(store: *const fstch_store, changes: *mut u32) -> i32;
    pub fn fstch_stats(store: *const fstch_store, statistics: *mut fstch_statistics) -> i32;
    pub fn fstch_group(store: *mut fstch_store, group: *mut u32) -> i32;
    pub fn fstch_group_engage(store: *mut fstch_store, group: u32, writer: u32) -> i32;
    pub fn fstch_group_disengage(store: *mut fstch_store, group: u32, writer: u32) -> i32;
    pub fn fstch_group_depend(store: *mut fstch_store, later: u32, earlier: u32) -> i32;
    pub fn fstch_group_close(store: *mut fstch_store, group: u32) -> i32;
    pub fn fstch_group_pending(store: *const fstch_store, group: u32, changes: *mut u32) -> i32;
    pub fn fstch_error_text(answer: i32, into: *mut c_char, into_length: usize) -> usize;
    pub fn fstch_version() -> u32;

    pub fn fstch_cache_open(cache: *mut fstch_cache, blocks: u32) -> i32;
    pub fn fstch_cache_admit(cache: *mut fstch_cache, block: u32, bytes: *const c_void) -> i32;
    pub fn fstch_cache_evict(cache: *mut fstch_cache, block: u32) -> i32;
    pub fn fstch_cache_renew(cache: *mut fstch_cache) -> i32;
    pub fn fstch_cache_close(cache: *mut fstch_cache) -> i32;
    pub fn fstch_cache_counts(cache: *mut fstch_cache, blocks: *mut u32, made: *mut u32, live: *mut u32, durable_below: *mut u32) -> i32;
    pub fn fstch_cache_patch(cache: *mut fstch_cache, writer: u32, block: u32, start: usize, bytes: *const c_void, length: usize, after: *const u32, after_count: usize, flags: u32, patch: *mut u32) -> i32;
    pub fn fstch_cache_merge(cache: *mut fstch_cache, a: u32, b: u32, name: *mut u32, which: *mut u32) -> i32;
    pub fn fstch_cache_mark(cache: *mut fstch_cache, patch: u32, mark: *mut u32) -> i32;
    pub fn fstch_cache_read(cache: *mut fstch_cache, block: u32, start: usize, length: usize, into: *mut c_void) -> i32;
    pub fn fstch_cache_without(cache: *mut fstch_cache, block: u32, patches: *const u32, count: usize, start: usize, length: usize, into: *mut c_void, which: *mut u32) -> i32;
    pub fn fstch_cache_next(cache: *mut fstch_cache, block: *mut u32) -> i32;
    pub fn fstch_cache_send(cache: *mut fstch_cache, block: u32, number: *mut u32, image: *mut c_void, image_length: usize) -> i32;
    pub fn fstch_cache_image(cache: *mut fstch_cache, block: u32, number: u32, image: *mut c_void, image_length: usize) -> i32;
    pub fn fstch_cache_flight(cache: *mut fstch_cache, block: u32, number: u32, patches: *mut u32, room: usize, count: *mut usize) -> i32;
    pub fn fstch_cache_complete(cache: *mut fstch_cache, block: u32, number: u32) -> i32;
    pub fn fstch_cache_group(cache: *mut fstch_cache, group: *mut u32) -> i32;
    pub fn fstch_cache_group_engage(cache: *mut fstch_cache, group: u32, writer: u32) -> i32;
    pub fn fstch_cache_group_disengage(cache: *mut fstch_cache, group: u32, writer: u32) -> i32;
    pub fn fstch_cache_group_depend(cache: *mut fstch_cache, later: u32, earlier: u32) -> i32;
    pub fn fstch_cache_group_close(cache: *mut fstch_cache, group: u32) -> i32;
    pub fn fstch_cache_group_pending(cache: *mut fstch_cache, group: u32, changes: *mut u32) -> i32;
}
