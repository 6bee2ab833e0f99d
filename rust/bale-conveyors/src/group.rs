//! The group: what ranks share.
use crate::{error::checked, ffi, ffi::Handle, Elastic, Error, Item, Rank};
use std::{fmt, marker::PhantomData};

/// The memory that ranks share, and the ranks that are still to be made.
///
/// A group may be dropped before its ranks: they keep what they share.
pub struct Group<T> {
    handle: Box<Handle>,
    items: PhantomData<fn(T) -> T>,
}

// SAFETY: see "Threads" in the crate's documentation. No `T` is in a group, and no call takes a
// group by `&`.
unsafe impl<T> Send for Group<T> {}
// SAFETY: as above.
unsafe impl<T> Sync for Group<T> {}

impl<T: Into<Item> + From<Item>> Group<T> {
    /// Makes a group, and takes all memory that its ranks share.
    ///
    /// - `dims` is a grid: one to three positive numbers, whose product is the number of ranks, at
    ///   most 64. With one number, an item goes straight to its rank. With two or three it takes as
    ///   many hops, and each rank has fewer, fuller buffers.
    /// - `buffer` is how many items travel together: a power of two from 1 to 1,024.
    /// - `slots` is how many buffers a link holds: 1, 2, 4 or 8.
    /// - `steady` says when [`Rank::advance`] sends a buffer: at once, or (if false) when it is
    ///   full or the rank is done.
    ///
    /// # Errors
    ///
    /// [`Error::BadNumbers`] if a number is out of range; [`Error::NoMemory`].
    pub fn new(dims: &[u32], buffer: u32, slots: u32, steady: bool) -> Result<Self, Error> {
        let mut handle = Handle::empty();
        // SAFETY: the slice is valid for its length, and the handle is empty and not shared.
        let answer = unsafe {
            ffi::bale_group_new(dims.as_ptr(), dims.len(), buffer, slots, steady, &mut *handle)
        };
        checked(answer.into())?;
        Ok(Group { handle, items: PhantomData })
    }

    /// Makes the rank with this number, counted from 0. Each can be made once.
    ///
    /// An epoch ends only if all ranks are made and each says that it is done.
    ///
    /// # Errors
    ///
    /// [`Error::NoRank`] if the number is not below that of ranks; [`Error::Taken`];
    /// [`Error::NoMemory`].
    pub fn rank(&mut self, number: u32) -> Result<Rank<T>, Error> {
        let mut handle = Handle::empty();
        // SAFETY: both handles are valid and not shared, and the rank's is empty.
        let answer = unsafe { ffi::bale_rank_new(&mut *self.handle, number, &mut *handle) };
        checked(answer.into())?;
        Ok(Rank::new(handle, number))
    }

    /// Makes the rank with this number as one for strings; its items have no `T`. All ranks of a
    /// group are made for strings, or all for items.
    ///
    /// # Errors
    ///
    /// As of [`rank`](Group::rank).
    pub fn elastic(&mut self, number: u32) -> Result<Elastic, Error> {
        let mut handle = Handle::empty();
        // SAFETY: both handles are valid and not shared, and the rank's is empty.
        let answer = unsafe { ffi::bale_elastic_new(&mut *self.handle, number, &mut *handle) };
        checked(answer.into())?;
        Ok(Elastic::new(handle, number))
    }

    /// Makes all ranks, in the order of their numbers.
    ///
    /// # Errors
    ///
    /// [`Error::Taken`] if any rank was made before; [`Error::NoMemory`].
    pub fn ranks(&mut self) -> Result<Vec<Rank<T>>, Error> {
        let first = self.rank(0)?;
        let numbers = 1..first.ranks();
        let mut all = vec![first];
        for number in numbers {
            all.push(self.rank(number)?);
        }
        Ok(all)
    }
}

impl<T> fmt::Debug for Group<T> {
    fn fmt(&self, f: &mut fmt::Formatter<'_>) -> fmt::Result {
        f.debug_struct("Group").finish_non_exhaustive()
    }
}

impl<T> Drop for Group<T> {
    fn drop(&mut self) {
        // SAFETY: the handle is valid and not shared.
        unsafe { ffi::bale_group_free(&mut *self.handle) };
    }
}
