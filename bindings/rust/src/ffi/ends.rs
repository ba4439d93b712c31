//! The ends of a channel of the archive `libhazbultra_channel.a`, whose values are words.
//!
//! `bindings/c/hazbultra_channel.h` says what a caller owes. The rules of calls are kept as for the mailbox: an [`End`] has
//! private fields and no `Clone`, each call takes it by `&mut`, and pointers are made of references.
//!
//! # Why a value has one owner
//!
//! A word stands for a value: it is the value itself, or the address of a slot or a box with it. Whoever turns the word back
//! into the value has to be the only one. These proved clauses of the archive's calls say so. The comments name them `ownership`:
//!
//! - `hz_channel_send`: `sent` and `unsent`. The value is sent exactly if the call returns `HZ_DONE`. At each other code the
//!   word is still its sender's.
//! - `hz_channel_try_receive`: `took` and `none`. The receiver gets a word exactly if the call returns `HZ_TOOK`.
//! - `laws::one_taker` of the crate `mb_segment`: each position that is drawn has one drawer, and at most one taker, which
//!   got what the drawer gave. A send draws one position of a segment, and a receive takes one.
//!
//! What a sender wrote before its send is seen by whoever takes the value, since both access the shared words in the one
//! order of all `SeqCst` accesses.
use super::calls::{
    self, Wake, excluded, expect_done, hz_channel_another, hz_channel_close, hz_channel_free,
    hz_channel_new, hz_channel_pay, hz_channel_send, hz_channel_try_receive,
};
use super::tray::{Slot, Tray};
use super::word::{Word, fits};
use std::cell::Cell;
use std::ffi::c_void;
use std::marker::PhantomData;
use std::mem::offset_of;
use std::ptr::{self, NonNull};
use std::{hint, thread};

/// What leads to an end of a channel, or to nothing.
#[repr(C)]
pub(super) struct End {
    full: bool,
    at: *mut c_void,
}

// The layout is that which a C compiler gives `hz_end`.
const _: () = {
    assert!(size_of::<End>() == 16);
    assert!(offset_of!(End, full) == 0 && offset_of!(End, at) == 8);
};

// SAFETY: the archive's own crate compiles only if all that an end leads to may go from thread to thread
// (`things_cross_threads`). Rust orders the calls of two threads, since each call takes the end by `&mut`.
unsafe impl Send for End {}

/// A call that makes a step, and says what it leaves to do.
type Step = unsafe extern "C" fn(&mut End, &mut Wake) -> u32;

impl End {
    fn empty() -> End {
        End {
            full: false,
            at: ptr::null_mut(),
        }
    }

    /// Pays what the end owes. No receiver of this crate sleeps in the archive, so there is no thread to wake.
    fn settle(&mut self, mut wake: Wake) {
        while wake.owes != 0 {
            // SAFETY: the rules of calls.
            unsafe { hz_channel_pay(self, &mut wake) };
        }
    }

    /// Makes a call until it is done.
    fn finish(&mut self, name: &str, call: Step) {
        for turn in 0.. {
            let mut wake = Wake::default();
            // SAFETY: the rules of calls.
            let code = unsafe { call(self, &mut wake) };
            self.settle(wake);
            if code != calls::AGAIN {
                return expect_done(name, code);
            }
            pause(turn);
        }
    }

    /// Another end of the same kind, if there is memory for it.
    fn another(&mut self) -> Option<End> {
        let mut other = End::empty();
        // SAFETY: the rules of calls.
        match unsafe { hz_channel_another(self, &mut other) } {
            calls::DONE => Some(other),
            calls::NO_MEMORY => None,
            code => excluded("hz_channel_another", code),
        }
    }
}

impl Drop for End {
    fn drop(&mut self) {
        if self.full {
            self.finish("hz_channel_free", hz_channel_free);
        }
    }
}

/// What a sender does after so many tries that others were first at: it spins for some microseconds, or yields. The one that
/// was first then works alone, which is worth more than the time: two that try all the time take the lines of memory from each
/// other. It yields ever more rarely, since whoever is many segments behind goes on by a few of them at each try.
pub(super) fn pause(turn: u32) {
    if turn > 1 && (turn + 1).is_power_of_two() {
        return thread::yield_now();
    }
    spin(4096 << turn.min(2));
}

/// What a receiver does. It yields sooner, since the sender of the next value may need the processor to mark it.
pub(super) fn pause_for_value(turn: u32) {
    if turn > 0 && (turn + 1).is_power_of_two() {
        return thread::yield_now();
    }
    spin(4096);
}

/// (A `spin_loop` takes from 4 to 40 nanoseconds, by the processor. A turn of this loop takes less than one.)
fn spin(turns: u32) {
    let mut turn = 0;
    while hint::black_box(turn) < turns {
        turn += 1;
    }
}

/// An end that sends values of `T`, each with the number of its sender if the channel is signed. The marker is that of a
/// producer.
pub(crate) struct Inlet<T> {
    end: End,
    /// What its last call left to do. (Each call writes it.)
    wake: Wake,
    is_signed: bool,
    /// For values that do not fit into a word.
    tray: Option<Tray<T>>,
    values: PhantomData<Cell<T>>,
}

/// An end that receives what the inlets of its channel send.
pub(crate) struct Outlet<T> {
    end: End,
    is_signed: bool,
    values: PhantomData<Cell<T>>,
}

/// A send that is not done yet.
pub(crate) struct Begun<T>(Stuck<T>);

enum Stuck<T> {
    /// There is no memory for a tray.
    NoMemory(T),
    /// A call for the word of the value returned this code, and may have left something to do.
    Called(Word, u32),
}

/// A take that took nothing so far: the code of its call, which is not [`TOOK`](calls::TOOK). It is [`DONE`](calls::DONE) if
/// there was no call, as by default.
#[derive(Clone, Copy, Default)]
pub(crate) struct Looked(u32);

/// Why a value was not sent. It is in it.
pub(crate) enum Unsent<T> {
    /// The channel is closed, for ever.
    Closed(T),
    NoMemory(T),
}

/// Why no value was taken.
pub(crate) enum Untaken {
    /// At a moment of the call nothing waited.
    Nothing,
    /// No value can come any more, for ever.
    Closed,
    /// A value is just being sent or taken.
    Again,
}

/// The ends of a new channel, if there is memory for it.
pub(crate) fn ends<T>(is_signed: bool) -> Option<(Inlet<T>, Outlet<T>)> {
    let (mut sender, mut receiver) = (End::empty(), End::empty());
    // SAFETY: the rules of calls.
    match unsafe { hz_channel_new(&mut sender, &mut receiver) } {
        calls::DONE => {}
        calls::NO_MEMORY => return None,
        code => excluded("hz_channel_new", code),
    }
    let values = PhantomData;
    let inlet = Inlet {
        end: sender,
        wake: Wake::default(),
        is_signed,
        tray: None,
        values,
    };
    let outlet = Outlet {
        end: receiver,
        is_signed,
        values,
    };
    Some((inlet, outlet))
}

impl<T> Inlet<T> {
    /// Another inlet of the same channel, if there is memory for it.
    pub(crate) fn another(&mut self) -> Option<Inlet<T>> {
        Some(Inlet {
            end: self.end.another()?,
            wake: Wake::default(),
            tray: None,
            ..*self
        })
    }

    /// Sends a value, if one call does that. The channel is not signed.
    #[inline]
    pub(crate) fn send(&mut self, value: T) -> Result<(), Begun<T>> {
        assert!(!self.is_signed);
        let word = self.word(value);
        let word = word.map_err(|value| Begun(Stuck::NoMemory(value)))?;
        let code = self.call(word);
        // (it is done, and nothing is owed)
        if code | self.wake.owes == calls::DONE {
            return Ok(());
        }
        Err(Begun(Stuck::Called(word, code)))
    }

    /// Goes on with a send that this inlet began.
    pub(crate) fn send_further(&mut self, begun: Begun<T>) -> Result<(), Unsent<T>> {
        match begun.0 {
            Stuck::NoMemory(value) => Err(Unsent::NoMemory(value)),
            Stuck::Called(word, code) => {
                assert!(!self.is_signed);
                self.finish(word, code).map_err(|code| {
                    // SAFETY: ownership. The word was not sent, and `word` made it of a `T`.
                    unsent(code, unsafe { value_of(word) })
                })
            }
        }
    }

    /// The word of a value: the value itself, or the address of its slot, if there is memory for that.
    #[inline]
    fn word(&mut self, value: T) -> Result<Word, T> {
        if fits::<T>() {
            return Ok(Word::of(value));
        }
        if self.tray.as_ref().is_none_or(Tray::is_full) {
            self.tray = Tray::new();
        }
        match &mut self.tray {
            Some(tray) => Ok(Word::of(tray.fill(value))),
            None => Err(value),
        }
    }

    /// Sends a value of the sender with this number. The channel is signed.
    pub(crate) fn send_signed(&mut self, value: T, who: u64) -> Result<(), Unsent<T>> {
        assert!(self.is_signed);
        let word = Word::try_pack((value, who)).map_err(|(value, _)| Unsent::NoMemory(value))?;
        let code = self.call(word);
        self.finish(word, code).map_err(|code| {
            // SAFETY: ownership. The word was not sent, and is that of a value with a number.
            let (value, _) = unsafe { word.unpack::<(T, u64)>() };
            unsent(code, value)
        })
    }

    #[inline]
    fn call(&mut self, word: Word) -> u32 {
        // SAFETY: the rules of calls.
        unsafe { hz_channel_send(&mut self.end, word, &mut self.wake) }
    }

    /// After such a call, sends the word, or returns the code that says why not.
    fn finish(&mut self, word: Word, mut code: u32) -> Result<(), u32> {
        for turn in 0.. {
            self.end.settle(self.wake);
            match code {
                calls::AGAIN => pause(turn),
                calls::DONE => break,
                code => return Err(code),
            }
            code = self.call(word);
        }
        Ok(())
    }

    /// Closes the channel: nothing is sent after this.
    pub(crate) fn close(&mut self) {
        self.end.finish("hz_channel_close", hz_channel_close);
    }
}

/// The value of a word.
///
/// # Safety
/// `Inlet::word` made the word of a `T`, and no other call of this function gets what that call made.
#[inline]
unsafe fn value_of<T>(word: Word) -> T {
    // SAFETY: the caller's promise. It is the same case as in `Inlet::word`.
    unsafe {
        if fits::<T>() {
            word.value()
        } else {
            Tray::empty(word.value::<NonNull<Slot<T>>>())
        }
    }
}

#[cold]
fn unsent<T>(code: u32, value: T) -> Unsent<T> {
    match code {
        calls::CLOSED => Unsent::Closed(value),
        calls::NO_MEMORY => Unsent::NoMemory(value),
        code => excluded("hz_channel_send", code),
    }
}

impl<T> Outlet<T> {
    /// Another outlet of the same channel, if there is memory for it.
    pub(crate) fn another(&mut self) -> Option<Outlet<T>> {
        Some(Outlet {
            end: self.end.another()?,
            ..*self
        })
    }

    /// Takes the next value that nobody else takes, if one call does that, and the channel is not signed.
    #[inline]
    pub(crate) fn take(&mut self) -> Result<T, Looked> {
        if self.is_signed {
            return Err(Looked::default());
        }
        let mut word = Word::EMPTY;
        let code = self.call(&mut word);
        if code != calls::TOOK {
            return Err(Looked(code));
        }
        // SAFETY: ownership. An inlet of this channel made the word of a `T`, and this outlet alone got it, now.
        Ok(unsafe { value_of(word) })
    }

    #[inline]
    fn call(&mut self, word: &mut Word) -> u32 {
        // SAFETY: the rules of calls.
        unsafe { hz_channel_try_receive(&mut self.end, word) }
    }

    /// Goes on with a take, by one call if that did not say yet what there is. The value comes with the number of its sender
    /// if the channel is signed.
    pub(crate) fn take_further(&mut self, looked: Looked) -> Result<(T, u64), Untaken> {
        let mut word = Word::EMPTY;
        let code = match looked {
            Looked(calls::DONE) => self.call(&mut word),
            Looked(code) => code,
        };
        match code {
            calls::TOOK => {}
            calls::NOTHING => return Err(Untaken::Nothing),
            calls::CLOSED => return Err(Untaken::Closed),
            calls::AGAIN => return Err(Untaken::Again),
            code => excluded("hz_channel_try_receive", code),
        }
        if self.is_signed {
            // SAFETY: ownership. An inlet of this channel made the word of a value with a number, and this outlet alone got it.
            return Ok(unsafe { word.unpack() });
        }
        // SAFETY: ownership. An inlet of this channel made the word of a `T`, and this outlet alone got it, now.
        Ok((unsafe { value_of(word) }, 0))
    }

    /// Takes the next value that is left, once nobody else receives.
    pub(crate) fn take_left(&mut self) -> Option<(T, u64)> {
        let look = |turn| match self.take_further(Looked::default()) {
            Err(Untaken::Again) => {
                pause_for_value(turn);
                None
            }
            taken => Some(taken.ok()),
        };
        (0..).find_map(look).flatten()
    }
}
