//! The rank: one side of the exchange.
use crate::{error::checked, ffi, ffi::Handle, Entry, Error, Item};
use std::{fmt, iter::FusedIterator, marker::PhantomData, ptr::NonNull, slice};

/// Whether a push found room. What found none comes back.
///
/// A push that finds no room is no error, so `?` leaves this value to be looked at; the compiler
/// warns if nothing does.
#[derive(Clone, Copy, PartialEq, Eq, Hash, Debug)]
#[must_use = "what was refused is in `Full`, and is lost if this is dropped"]
pub enum Pushed<T> {
    /// All of it was pushed.
    Accepted,
    /// The open buffer is full, and this was not pushed: advance, pull, and push it again.
    Full(T),
}

impl<T> Pushed<T> {
    /// Whether all was pushed.
    pub fn is_accepted(&self) -> bool {
        matches!(self, Pushed::Accepted)
    }

    /// What was not pushed.
    #[must_use = "what was refused is lost if this is dropped"]
    pub fn refused(self) -> Option<T> {
        match self {
            Pushed::Accepted => None,
            Pushed::Full(refused) => Some(refused),
        }
    }
}

/// The items that [`Rank::push_many`] did not push, and the ranks that they are for.
pub type Unpushed<'a> = (&'a [Item], &'a [u32]);

/// How far an advance found the rank.
#[derive(Clone, Copy, PartialEq, Eq, Hash, Debug)]
pub enum Progress {
    /// Items may still be pushed, or buffers are still to be sent.
    More,
    /// This rank has sent everything; items are still to come or to be pulled.
    Near,
    /// The epoch is over for this rank: it has pulled all that any rank pushed to it.
    Complete,
}

impl Progress {
    /// By the answer of an advance.
    pub(crate) fn from_answer(answer: i64) -> Progress {
        match answer {
            3 => Progress::More,
            4 => Progress::Near,
            5 => Progress::Complete,
            other => panic!("the library is of another version: advance answered {other}"),
        }
    }

    /// Whether the epoch is over for this rank.
    #[must_use]
    pub fn is_complete(self) -> bool {
        self == Progress::Complete
    }
}

/// The state of a rank. Each call that leads from one to another says so.
#[derive(Clone, Copy, PartialEq, Eq, Hash, Debug)]
pub enum Phase {
    /// The epoch has not begun.
    Dormant,
    /// Items may be pushed.
    Working,
    /// The rank said that it is done; buffers are still to be sent.
    Endgame,
    /// This rank has sent everything; items are still to come or to be pulled.
    Cleanup,
    /// Every rank said that it is done, and this rank has pulled all that was pushed to it.
    Complete,
}

impl Phase {
    /// By its number.
    pub(crate) fn from_answer(answer: i32) -> Phase {
        match answer {
            100 => Phase::Dormant,
            101 => Phase::Working,
            102 => Phase::Endgame,
            103 => Phase::Cleanup,
            104 => Phase::Complete,
            other => panic!("the library is of another version: phase answered {other}"),
        }
    }
}

/// One rank's side of an exchange, for one thread at a time.
///
/// If a rank is dropped before its epoch is over, that epoch never ends for the others.
pub struct Rank<T> {
    handle: Box<Handle>,
    number: u32,
    ranks: u32,
    items: PhantomData<fn(T) -> T>,
}

// SAFETY: see "Threads" in the crate's documentation. No `T` is in a rank: its buffers have words.
unsafe impl<T> Send for Rank<T> {}
// SAFETY: as above; by `&` only the two numbers beside the handle can be read.
unsafe impl<T> Sync for Rank<T> {}

// In each call below, the handle is valid and live, and `&mut self` keeps other calls away.
impl<T: Into<Item> + From<Item>> Rank<T> {
    pub(crate) fn new(mut handle: Box<Handle>, number: u32) -> Self {
        // SAFETY: the handle is valid and not shared.
        let ranks = unsafe { ffi::bale_ranks(&mut *handle) };
        Rank { handle, number, ranks, items: PhantomData }
    }

    /// Begins an epoch: from [`Phase::Dormant`] to [`Phase::Working`].
    ///
    /// No barrier is needed before it: other ranks may still be in the epoch before.
    ///
    /// # Errors
    ///
    /// [`Error::Begun`] in any other state.
    pub fn begin(&mut self) -> Result<(), Error> {
        // SAFETY: as said above.
        checked(unsafe { ffi::bale_begin(&mut *self.handle) }.into()).map(drop)
    }

    /// Pushes an item toward the rank with the number `to`, in [`Phase::Working`].
    ///
    /// If the open buffer toward it is full, nothing is pushed, and [`Pushed::Full`] gives back
    /// what the receiver would have pulled: the item that its three words stand for.
    ///
    /// # Errors
    ///
    /// [`Error::NoRank`], [`Error::NotBegun`] or [`Error::SaidDone`]; the item is dropped.
    pub fn push(&mut self, item: T, to: u32) -> Result<Pushed<T>, Error> {
        let words = item.into();
        // SAFETY: as said above, and the words are valid for the call.
        match checked(unsafe { ffi::bale_push(&mut *self.handle, &words, to) }.into())? {
            0 => Ok(Pushed::Accepted),
            _ => Ok(Pushed::Full(words.into())),
        }
    }

    /// Pushes `items[0]` toward `to[0]`, `items[1]` toward `to[1]` and so on, until one finds no
    /// room; [`Pushed::Full`] gives back what is left of both slices.
    ///
    /// Each call looks at all of `to` first, so slices much longer than the open buffers, given
    /// again and again, cost time.
    ///
    /// # Errors
    ///
    /// [`Error::NoRank`] if any number in `to` is no rank's, [`Error::NotBegun`] or
    /// [`Error::SaidDone`]; nothing is pushed.
    ///
    /// # Panics
    ///
    /// If the slices differ in length.
    pub fn push_many<'a>(
        &mut self,
        items: &'a [Item],
        to: &'a [u32],
    ) -> Result<Pushed<Unpushed<'a>>, Error> {
        assert_eq!(items.len(), to.len(), "push_many: as many ranks as items");
        let (items_at, to_at, count) = (items.as_ptr(), to.as_ptr(), items.len());
        // SAFETY: as said above, and both slices are valid for their length.
        let answer =
            unsafe { ffi::bale_push_many(&mut *self.handle, items_at, count, to_at, count) };
        let pushed = checked(answer)? as usize;
        if pushed == count {
            return Ok(Pushed::Accepted);
        }
        Ok(Pushed::Full((&items[pushed..], &to[pushed..])))
    }

    /// Pulls the next item that came, with its sender, or `None` if nothing is there now. The items
    /// of one sender come in the order in which it pushed them.
    ///
    /// # Errors
    ///
    /// [`Error::NotBegun`].
    pub fn pull(&mut self) -> Result<Option<(u32, T)>, Error> {
        let (mut words, mut from) = (Item::default(), 0);
        // SAFETY: as said above; the words and the number are valid and not shared.
        match checked(unsafe { ffi::bale_pull(&mut *self.handle, &mut words, &mut from) }.into())? {
            0 => Ok(Some((from, words.into()))),
            _ => Ok(None),
        }
    }

    /// Pulls items into `items[0]`, `items[1]` and so on, and their senders into `from`, until
    /// nothing is there to be pulled or the slices end. Returns how many were pulled; the places
    /// after them stay as they were. It is fastest with room for a whole buffer.
    ///
    /// # Errors
    ///
    /// [`Error::NotBegun`].
    ///
    /// # Panics
    ///
    /// If the slices differ in length.
    pub fn pull_many(&mut self, items: &mut [Item], from: &mut [u32]) -> Result<usize, Error> {
        assert_eq!(items.len(), from.len(), "pull_many: as many senders as items");
        let (items_at, from_at, count) = (items.as_mut_ptr(), from.as_mut_ptr(), items.len());
        // SAFETY: as said above; both slices are valid for their length and not shared.
        let answer =
            unsafe { ffi::bale_pull_many(&mut *self.handle, items_at, count, from_at, count) };
        checked(answer).map(|pulled| pulled as usize)
    }

    /// Lends what the next pulls give, where it came, without a copy: at least one item, all of one
    /// sender, or `None` if nothing is there now. [`View::take`] pulls the first ones; the others
    /// stay to be pulled.
    ///
    /// # Errors
    ///
    /// [`Error::NotBegun`].
    pub fn view(&mut self) -> Result<Option<View<'_, T>>, Error> {
        let entries: NonNull<Entry> = NonNull::dangling();
        let mut lent = ffi::Lent { entries: entries.as_ptr(), count: 0, from: 0 };
        // SAFETY: as said above; no entry is read at the dangling address.
        match checked(unsafe { ffi::bale_lend(&mut *self.handle, &mut lent) }.into())? {
            0 => Ok(Some(View { rank: self, lent })),
            _ => Ok(None),
        }
    }

    /// Puts back the item that the latest call pulled, so that the next pull gives it again.
    /// Returns false if the latest call wasn't a [`pull`](Rank::pull) that gave an item.
    pub fn unpull(&mut self) -> bool {
        // SAFETY: as said above.
        unsafe { ffi::bale_unpull(&mut *self.handle) == 0 }
    }

    /// Pulls, one at a time, the items that are there now, each with its sender. It ends when
    /// [`pull`](Rank::pull) gives nothing, and at once if the epoch has not begun. If the loop is
    /// left early, the other items stay to be pulled.
    pub fn drain(&mut self) -> Drain<'_, T> {
        Drain { rank: self }
    }

    /// Sends and collects what can be sent and collected now, and reports how far the rank is.
    /// It never waits. A rank that makes no progress should yield its processor.
    ///
    /// `done` says that this rank pushes nothing more in this epoch; it can't be taken back. It
    /// leads from [`Phase::Working`] to [`Phase::Endgame`], [`Phase::Cleanup`] and, once all is
    /// pulled, [`Phase::Complete`].
    ///
    /// # Errors
    ///
    /// [`Error::NotBegun`]; [`Error::SaidDone`] if `done` is false after it was true.
    pub fn advance(&mut self, done: bool) -> Result<Progress, Error> {
        // SAFETY: as said above.
        let answer = unsafe { ffi::bale_advance(&mut *self.handle, done) };
        Ok(Progress::from_answer(checked(answer.into())?))
    }

    /// Ends an epoch: from [`Phase::Complete`] to [`Phase::Dormant`].
    ///
    /// # Errors
    ///
    /// [`Error::NotComplete`] in any other state; [`Error::LastEpoch`] after 2^63 epochs.
    pub fn reset(&mut self) -> Result<(), Error> {
        // SAFETY: as said above.
        checked(unsafe { ffi::bale_reset(&mut *self.handle) }.into()).map(drop)
    }

    /// What the rank sent and received so far.
    pub fn statistics(&mut self) -> Statistics {
        let mut statistics = Statistics::default();
        // SAFETY: as said above; the numbers are valid and not shared.
        unsafe { ffi::bale_statistics(&mut *self.handle, &mut statistics) };
        statistics
    }

    /// The state of this rank.
    pub fn phase(&mut self) -> Phase {
        // SAFETY: as said above.
        Phase::from_answer(unsafe { ffi::bale_phase(&mut *self.handle) })
    }
}

impl<T> Rank<T> {
    /// The number of this rank, counted from 0.
    #[must_use]
    pub fn number(&self) -> u32 {
        self.number
    }

    /// How many ranks the group has.
    #[must_use]
    pub fn ranks(&self) -> u32 {
        self.ranks
    }
}

impl<T> fmt::Debug for Rank<T> {
    fn fmt(&self, f: &mut fmt::Formatter<'_>) -> fmt::Result {
        f.debug_struct("Rank")
            .field("number", &self.number)
            .field("ranks", &self.ranks)
            .finish_non_exhaustive()
    }
}

impl<T> Drop for Rank<T> {
    fn drop(&mut self) {
        // SAFETY: the handle is valid and not shared.
        unsafe { ffi::bale_rank_free(&mut *self.handle) };
    }
}

/// What a rank sent and received since it was made, in all its epochs, also to itself: see
/// [`Rank::statistics`].
///
/// A buffer is counted when `advance` sends or collects it, with all items in it, also those that
/// only pass through the rank. Each epoch ends with one last buffer on each link, which may be
/// empty.
#[repr(C)]
#[derive(Clone, Copy, PartialEq, Eq, Hash, Default, Debug)]
#[non_exhaustive]
pub struct Statistics {
    /// Buffers sent.
    pub buffers_sent: u64,
    /// The items in them.
    pub items_sent: u64,
    /// Buffers received.
    pub buffers_received: u64,
    /// The items in them.
    pub items_received: u64,
}

/// Items that a rank got and has not pulled, where they came: see [`Rank::view`].
#[must_use = "nothing is pulled until `take` is called"]
pub struct View<'a, T> {
    rank: &'a mut Rank<T>,
    lent: ffi::Lent,
}

impl<T: Into<Item> + From<Item>> View<'_, T> {
    /// The rank that pushed them.
    #[must_use]
    pub fn from(&self) -> u32 {
        self.lent.from
    }

    /// The entries, in the order in which they were pushed; at least one.
    #[must_use]
    pub fn entries(&self) -> &[Entry] {
        // SAFETY: the rank lent them, and while it is borrowed here no call takes them back: a push
        // goes to other buffers, and `take` ends the view.
        unsafe { slice::from_raw_parts(self.lent.entries, self.lent.count) }
    }

    /// Pushes an item while the view lasts, as [`Rank::push`] does.
    ///
    /// # Errors
    ///
    /// As of [`Rank::push`].
    pub fn push(&mut self, item: T, to: u32) -> Result<Pushed<T>, Error> {
        self.rank.push(item, to)
    }

    /// Pulls the first `count` of them, and ends the view.
    ///
    /// # Errors
    ///
    /// [`Error::NotLent`] if there are not so many; nothing is pulled.
    pub fn take(self, count: usize) -> Result<(), Error> {
        // SAFETY: the handle is valid and live, and `&mut` keeps other calls away.
        checked(unsafe { ffi::bale_pulled(&mut *self.rank.handle, count) }.into()).map(drop)
    }
}

impl<T> fmt::Debug for View<'_, T> {
    fn fmt(&self, f: &mut fmt::Formatter<'_>) -> fmt::Result {
        f.debug_struct("View")
            .field("from", &self.lent.from)
            .field("count", &self.lent.count)
            .finish_non_exhaustive()
    }
}

/// Pulls the items that are there now: see [`Rank::drain`].
#[derive(Debug)]
#[must_use = "nothing is pulled until the iterator is used"]
pub struct Drain<'a, T> {
    rank: &'a mut Rank<T>,
}

impl<T: Into<Item> + From<Item>> Iterator for Drain<'_, T> {
    type Item = (u32, T);

    fn next(&mut self) -> Option<(u32, T)> {
        self.rank.pull().ok().flatten()
    }
}

// Only an advance makes more items come, and none can be made while the rank is borrowed.
impl<T: Into<Item> + From<Item>> FusedIterator for Drain<'_, T> {}
