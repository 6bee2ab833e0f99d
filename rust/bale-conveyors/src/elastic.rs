//! A rank for strings.
use crate::{error::checked, ffi, ffi::Handle, Error, Phase, Progress, Pushed};
use std::{fmt, ptr::NonNull, slice};

/// One rank's side of an exchange of strings of up to 65,535 bytes, for one thread at a time:
/// [`Group::elastic`](crate::Group::elastic) makes it.
///
/// A string is pushed as a whole or not at all, and pulled as a whole; of one sender strings come
/// in the order in which it pushed them. The states and calls are those of a [`Rank`](crate::Rank).
pub struct Elastic {
    handle: Box<Handle>,
    number: u32,
    ranks: u32,
}

// SAFETY: see "Threads" in the crate's documentation; it holds of this handle as of a rank's.
unsafe impl Send for Elastic {}
// SAFETY: as above; by `&` only the two numbers beside the handle can be read.
unsafe impl Sync for Elastic {}

// In each call below, the handle is valid and live, and `&mut self` keeps other calls away.
impl Elastic {
    pub(crate) fn new(mut handle: Box<Handle>, number: u32) -> Self {
        // SAFETY: the handle is valid and not shared.
        let ranks = unsafe { ffi::bale_elastic_ranks(&mut *handle) };
        Elastic { handle, number, ranks }
    }

    /// Begins an epoch, as [`Rank::begin`](crate::Rank::begin).
    ///
    /// # Errors
    ///
    /// [`Error::Begun`] in any other state than [`Phase::Dormant`].
    pub fn begin(&mut self) -> Result<(), Error> {
        // SAFETY: as said above.
        checked(unsafe { ffi::bale_elastic_begin(&mut *self.handle) }.into()).map(drop)
    }

    /// Pushes a string toward the rank with the number `to`, in [`Phase::Working`]. What finds no
    /// room in the buffers is kept, and pushed by the advances that follow; meanwhile a push is
    /// answered [`Pushed::Full`], and pushes nothing.
    ///
    /// # Errors
    ///
    /// [`Error::NoRank`], [`Error::NotBegun`], [`Error::SaidDone`], [`Error::TooLong`] or
    /// [`Error::NoMemory`]; nothing is pushed.
    pub fn push<'a>(&mut self, bytes: &'a [u8], to: u32) -> Result<Pushed<&'a [u8]>, Error> {
        // SAFETY: as said above, and the slice is valid for its length.
        let answer = unsafe { ffi::bale_epush(&mut *self.handle, bytes.as_ptr(), bytes.len(), to) };
        match checked(answer.into())? {
            0 => Ok(Pushed::Accepted),
            _ => Ok(Pushed::Full(bytes)),
        }
    }

    /// Pulls the next string that came as a whole, with its sender, or `None` if there is none now.
    ///
    /// # Errors
    ///
    /// [`Error::NotBegun`]; [`Error::NoMemory`], and then nothing is lost.
    pub fn pull(&mut self) -> Result<Option<(u32, &[u8])>, Error> {
        let mut from = 0;
        // SAFETY: as said above; the number is valid and not shared.
        match checked(unsafe { ffi::bale_elastic_pull(&mut *self.handle, &mut from) }.into())? {
            0 => Ok(Some((from, self.string()))),
            _ => Ok(None),
        }
    }

    /// The string that the latest pull gave.
    fn string(&mut self) -> &[u8] {
        let mut string = ffi::Bytes { bytes: NonNull::dangling().as_ptr(), nbytes: 0 };
        // SAFETY: as said above; no byte is read at the dangling address. What is lent stays there
        // while the rank is borrowed.
        unsafe {
            ffi::bale_elastic_string(&mut *self.handle, &mut string);
            slice::from_raw_parts(string.bytes, string.nbytes)
        }
    }

    /// Pushes what is kept of the latest string, and advances, as
    /// [`Rank::advance`](crate::Rank::advance). As long as anything is kept, the rank does not yet
    /// count as done.
    ///
    /// # Errors
    ///
    /// [`Error::NotBegun`]; [`Error::SaidDone`] if `done` is false after it was true.
    pub fn advance(&mut self, done: bool) -> Result<Progress, Error> {
        // SAFETY: as said above.
        let answer = unsafe { ffi::bale_elastic_advance(&mut *self.handle, done) };
        Ok(Progress::from_answer(checked(answer.into())?))
    }

    /// Ends an epoch: from [`Phase::Complete`] to [`Phase::Dormant`].
    ///
    /// # Errors
    ///
    /// [`Error::NotComplete`] in any other state; [`Error::LastEpoch`] after 2^63 epochs.
    pub fn reset(&mut self) -> Result<(), Error> {
        // SAFETY: as said above.
        checked(unsafe { ffi::bale_elastic_reset(&mut *self.handle) }.into()).map(drop)
    }

    /// The state of this rank.
    pub fn phase(&mut self) -> Phase {
        // SAFETY: as said above.
        Phase::from_answer(unsafe { ffi::bale_elastic_phase(&mut *self.handle) })
    }

    /// The number of this rank, counted from 0.
    #[must_use]
    pub fn number(&self) -> u32 {
        self.number
    }

    /// How many ranks the group has.
    #[must_use]
    pub fn ranks(&self) -> u32 {
        self.ranks
    }
}

impl fmt::Debug for Elastic {
    fn fmt(&self, f: &mut fmt::Formatter<'_>) -> fmt::Result {
        f.debug_struct("Elastic")
            .field("number", &self.number)
            .field("ranks", &self.ranks)
            .finish_non_exhaustive()
    }
}

impl Drop for Elastic {
    fn drop(&mut self) {
        // SAFETY: the handle is valid and not shared.
        unsafe { ffi::bale_elastic_free(&mut *self.handle) };
    }
}
