//! What `c/bale.h` declares.
use crate::{Entry, Item, Statistics};
use std::ffi::{c_char, c_void};

/// Aligned, so that the handles of two threads share no cache line.
#[repr(C, align(128))]
pub struct Handle {
    at: *mut c_void,
    live: bool,
}

impl Handle {
    /// A handle begins as zeros, and its bytes are not moved while it is live: hence the box.
    pub fn empty() -> Box<Handle> {
        Box::new(Handle { at: std::ptr::null_mut(), live: false })
    }
}

/// What a view lends. It begins as an address that can be read, and no entry.
#[repr(C)]
pub struct Lent {
    pub entries: *const Entry,
    pub count: usize,
    pub from: u32,
}

/// The bytes of a string that a rank lends. It begins as an address that can be read, and no byte.
#[repr(C)]
pub struct Bytes {
    pub bytes: *const u8,
    pub nbytes: usize,
}

extern "C" {
    pub fn bale_group_new(
        dims: *const u32,
        ndims: usize,
        buffer: u32,
        slots: u32,
        steady: bool,
        group: *mut Handle,
    ) -> i32;
    pub fn bale_rank_new(group: *mut Handle, number: u32, rank: *mut Handle) -> i32;
    pub fn bale_begin(rank: *mut Handle) -> i32;
    pub fn bale_push(rank: *mut Handle, item: *const Item, to: u32) -> i32;
    pub fn bale_pull(rank: *mut Handle, item: *mut Item, from: *mut u32) -> i32;
    pub fn bale_unpull(rank: *mut Handle) -> i32;
    pub fn bale_advance(rank: *mut Handle, done: bool) -> i32;
    pub fn bale_reset(rank: *mut Handle) -> i32;
    pub fn bale_push_many(
        rank: *mut Handle,
        items: *const Item,
        nitems: usize,
        to: *const u32,
        nto: usize,
    ) -> i64;
    pub fn bale_pull_many(
        rank: *mut Handle,
        items: *mut Item,
        nitems: usize,
        from: *mut u32,
        nfrom: usize,
    ) -> i64;
    pub fn bale_lend(rank: *mut Handle, lent: *mut Lent) -> i32;
    pub fn bale_pulled(rank: *mut Handle, count: usize) -> i32;
    pub fn bale_ranks(rank: *mut Handle) -> u32;
    pub fn bale_phase(rank: *mut Handle) -> i32;
    pub fn bale_statistics(rank: *mut Handle, statistics: *mut Statistics) -> i32;
    pub fn bale_elastic_new(group: *mut Handle, number: u32, rank: *mut Handle) -> i32;
    pub fn bale_elastic_begin(rank: *mut Handle) -> i32;
    pub fn bale_epush(rank: *mut Handle, bytes: *const u8, nbytes: usize, to: u32) -> i32;
    pub fn bale_elastic_pull(rank: *mut Handle, from: *mut u32) -> i32;
    pub fn bale_elastic_string(rank: *mut Handle, string: *mut Bytes) -> i32;
    pub fn bale_elastic_advance(rank: *mut Handle, done: bool) -> i32;
    pub fn bale_elastic_reset(rank: *mut Handle) -> i32;
    pub fn bale_elastic_ranks(rank: *mut Handle) -> u32;
    pub fn bale_elastic_phase(rank: *mut Handle) -> i32;
    pub fn bale_elastic_free(rank: *mut Handle) -> i32;
    pub fn bale_rank_free(rank: *mut Handle) -> i32;
    pub fn bale_group_free(group: *mut Handle) -> i32;
    pub fn bale_version() -> *const c_char;
}
