//! A producer and a consumer of the archive.
use super::calls::{self, excluded, expect_done, hz_finish, hz_poll, hz_put, hz_take, number};
use super::handle::Handle;
use super::word::Word;
use crate::consumer::Poll;
use std::cell::Cell;
use std::marker::PhantomData;

/// A producer, which turns values into items. The marker says that it stands for values of `T`: it is `Send` only if `T`
/// is, it is never `Sync`, and no lifetime in `T` can be made shorter or longer.
pub(crate) struct Producer<T> {
    pub(super) handle: Handle,
    pub(super) values: PhantomData<Cell<T>>,
}

/// `hz_poll` or `hz_take`.
pub(super) type Call = unsafe extern "C" fn(&mut Handle, u64, u64, &mut Word) -> u32;

/// A consumer, which turns the items that it takes into values again. The marker is that of a producer.
pub(crate) struct Consumer<T> {
    pub(super) handle: Handle,
    pub(super) shortest: Call,
    pub(super) values: PhantomData<Cell<T>>,
}

impl<T> Producer<T> {
    /// Puts a value, or gives it back if no cell is left for it.
    pub(crate) fn put(&mut self, value: T) -> Result<(), T> {
        let word = Word::pack(value);
        // SAFETY: the rules of calls.
        match unsafe { hz_put(&mut self.handle, word) } {
            calls::LINKED => Ok(()),
            // SAFETY: ownership. After `HZ_FULL` the item is in no lane, so the word is still ours alone.
            calls::FULL => Err(unsafe { word.unpack() }),
            // (`HZ_CLOSED` comes only after a finish, after which `crate::Producer` has no put)
            other => excluded("hz_put", other),
        }
    }

    /// Ends the lane.
    pub(crate) fn finish(&mut self) {
        // SAFETY: the rules of calls.
        let code = unsafe { hz_finish(&mut self.handle) };
        // (`HZ_CLOSED` comes only after a finish, and `crate::Producer` makes one, in its drop)
        expect_done("hz_finish", code);
    }
}

impl<T> Consumer<T> {
    /// Polls a lane.
    pub(crate) fn poll(&mut self, lane: u64, budget: u64) -> Poll<T> {
        let mut value = Word::EMPTY;
        // SAFETY: the rules of calls.
        let code = unsafe { hz_poll(&mut self.handle, lane, budget, &mut value) };
        // SAFETY: these are of that call.
        unsafe { Self::told("hz_poll", code, value) }
    }

    /// Polls a lane or takes an item of it, without a limit: by the call that is the shorter one for the mailbox.
    pub(crate) fn poll_or_take(&mut self, lane: u64) -> Poll<T> {
        let mut value = Word::EMPTY;
        // SAFETY: the rules of calls, which are alike for both.
        let code = unsafe { (self.shortest)(&mut self.handle, lane, u64::MAX, &mut value) };
        // SAFETY: these are of that call.
        unsafe { Self::told("hz_poll or hz_take", code, value) }
    }

    /// Takes an item of a lane, past those that are lost.
    pub(crate) fn take(&mut self, lane: u64, most: u64) -> Poll<T> {
        let mut value = Word::EMPTY;
        // SAFETY: the rules of calls.
        let code = unsafe { hz_take(&mut self.handle, lane, most, &mut value) };
        // SAFETY: these are of that call.
        unsafe { Self::told("hz_take", code, value) }
    }

    /// What a code and a value tell.
    ///
    /// # Safety
    /// A call of a consumer of this type returned this code and wrote this value, and nobody else was told them.
    unsafe fn told(call: &str, code: u32, value: Word) -> Poll<T> {
        if code == calls::TOOK {
            // SAFETY: ownership. A producer of this mailbox made the word of the item, and this consumer alone takes it, now.
            Poll::Took(unsafe { value.unpack() })
        } else {
            // SAFETY: the caller's promise.
            unsafe { untaken(call, code, value) }
        }
    }
}

/// What the other codes tell. (It is a call of its own, so that what is taken costs no jump by a table.)
///
/// # Safety
/// A call returned this code and wrote this value.
#[inline(never)]
unsafe fn untaken<T>(call: &str, code: u32, value: Word) -> Poll<T> {
    match code {
        // SAFETY: with this code the archive writes a number.
        calls::LOST => Poll::Lost(number(unsafe { value.value() })),
        calls::NOTHING => Poll::Nothing,
        calls::UNDECIDED => Poll::Undecided,
        calls::ENDED => Poll::Ended,
        calls::SPENT => Poll::Spent,
        calls::NO_LANE => Poll::NoLane,
        other => excluded(call, other),
    }
}
