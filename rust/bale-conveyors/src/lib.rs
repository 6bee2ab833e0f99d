//! Conveyors: many ranks exchange small items in aggregated buffers. No item is lost, duplicated or
//! reordered on its way from one sender.
//!
//! A safe crate over `libbale_c`, the library for C of the repository bale conveyors, whose
//! exchange is proved. A [`Group`] makes [`Rank`]s, which go to threads of their own. In each epoch
//! a rank pushes items toward any other, advances the exchange, and pulls what came, until
//! [`Progress::Complete`]. No call waits for another thread.
//!
//! Strings of bytes go between ranks of another kind, [`Elastic`].
//!
//! An item is any type that goes to the three words of an [`Item`] and back, such as `[u64; 3]`.
//!
//! ```
//! use bale_conveyors::{Error, Group, Pushed, Rank};
//! use std::thread;
//!
//! // Each rank sends its number to all ranks, and adds up what it gets.
//! fn sum_of_numbers(mut rank: Rank<[u64; 3]>) -> Result<u64, Error> {
//!     let (mut sum, mut to) = (0, 0);
//!     rank.begin()?;
//!     loop {
//!         while to < rank.ranks() {
//!             match rank.push([rank.number().into(), 0, 0], to)? {
//!                 Pushed::Accepted => to += 1,
//!                 Pushed::Full(_) => break,
//!             }
//!         }
//!         let progress = rank.advance(to == rank.ranks())?;
//!         sum += rank.drain().map(|(_from, [number, ..])| number).sum::<u64>();
//!         if progress.is_complete() {
//!             return Ok(sum);
//!         }
//!         thread::yield_now();
//!     }
//! }
//!
//! let ranks = Group::new(&[4], 64, 2, false)?.ranks()?;
//! thread::scope(|scope| {
//!     let threads: Vec<_> =
//!         ranks.into_iter().map(|rank| scope.spawn(|| sum_of_numbers(rank))).collect();
//!     for thread in threads {
//!         assert_eq!(thread.join().unwrap(), Ok(6));
//!     }
//! });
//! # Ok::<(), Error>(())
//! ```
//!
//! # A full buffer
//!
//! A push toward a full buffer is no error: it gives the item back in [`Pushed::Full`]. A program
//! that drops it has a warning, which this makes an error:
//!
//! ```compile_fail
//! #![deny(unused_must_use)]
//! # use bale_conveyors::{Error, Group};
//! let mut rank = Group::<[u64; 3]>::new(&[1], 64, 2, false)?.rank(0)?;
//! rank.begin()?;
//! rank.push([1, 2, 3], 0)?;
//! # Ok::<(), Error>(())
//! ```
//!
//! # Threads
//!
//! [`Group`] and [`Rank`] are [`Send`] and [`Sync`], whatever the type of the items is. `c/bale.h`
//! asks that a handle is used by one call at a time, and that what hands it to another thread
//! orders the calls before and after. Rust gives both:
//!
//! - Each call that reaches the library takes `&mut self` (or is `drop`), so two calls on one
//!   handle never overlap. A call by `&self` reads numbers of the Rust value alone, which makes
//!   `Sync` sound.
//! - Safe code moves a value to another thread only by what synchronizes both: a thread's start or
//!   end, a channel, a lock. So one use of a handle *happens before* the next, and that is enough
//!   for `Send`. The library keeps a rank's state in plain memory behind its handle, and nothing in
//!   variables of a thread. The steps that ranks share are sequentially consistent, and their one
//!   order agrees with what happens before what.
//! - Different handles of one group may be used at once, and dropped in any order, on any thread.
//! - No `T` goes from one thread to another: what travels are three words, which the receiver makes
//!   a `T` from. So `T` need not be `Send`.
//!
//! # Linking
//!
//! The build script looks for `libbale_c.a` (or else `libbale_c_unproved.a`) in the folder that the
//! environment variable `BALE_C_DIR` names, or without it in `c/out` of the repository, which
//! `c/build` fills. Documentation and `cargo check` need no library. [`version`] says which one a
//! program has.
mod elastic;
mod error;
mod ffi;
mod group;
mod rank;

pub use elastic::Elastic;
pub use error::Error;
pub use group::Group;
pub use rank::{Drain, Phase, Progress, Pushed, Rank, Statistics, Unpushed, View};

/// An item as it travels: three words, whose meaning is the program's own.
#[repr(C)]
#[derive(Clone, Copy, PartialEq, Eq, Hash, Default, Debug)]
pub struct Item {
    /// The first word.
    pub a: u64,
    /// The second word.
    pub b: u64,
    /// The third word.
    pub c: u64,
}

impl From<[u64; 3]> for Item {
    fn from([a, b, c]: [u64; 3]) -> Item {
        Item { a, b, c }
    }
}

impl From<Item> for [u64; 3] {
    fn from(item: Item) -> [u64; 3] {
        [item.a, item.b, item.c]
    }
}

/// An item in the buffer in which it came: what [`Rank::view`] lends.
#[repr(C)]
#[derive(Clone, Copy, Debug)]
pub struct Entry {
    way: [u8; 3],
    item: Item,
}

impl Entry {
    /// The item.
    #[must_use]
    pub fn item(&self) -> &Item {
        &self.item
    }
}

/// The program of README.md, which `cargo test` runs.
#[cfg(doctest)]
#[doc = include_str!("../README.md")]
struct Readme;

/// The version of the library that is linked: `"1"`, and `"1 (unproved)"` if it was compiled with
/// run-time checks and no proof.
#[must_use]
pub fn version() -> String {
    // SAFETY: the library answers a string that is never freed.
    unsafe { std::ffi::CStr::from_ptr(ffi::bale_version()) }.to_string_lossy().into_owned()
}
