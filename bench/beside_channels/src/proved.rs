//! The channel for C, whose core is proved, called from here as a C program calls it.
use crate::{Receiving, Sending};
use std::cell::UnsafeCell;
use std::ffi::c_void;
use std::marker::PhantomData;
use std::ptr;

/// An `hz_sender` or an `hz_receiver` of `hazbultra_channel.h`. Both are made alike.
#[repr(C)]
struct End {
    full: bool,
    at: *mut c_void,
    sleepers: *mut c_void,
    bound: u64,
}

const NO_END: End = End {
    full: false,
    at: ptr::null_mut(),
    sleepers: ptr::null_mut(),
    bound: 0,
};
const DONE: u32 = 0;
const TOOK: u32 = 1;
const NOTHING: u32 = 4;
const AGAIN: u32 = 12;

unsafe extern "C" {
    fn hz_channel(sender: *mut End, receiver: *mut End) -> u32;
    fn hz_sender_clone(sender: *mut End, other: *mut End) -> u32;
    fn hz_receiver_clone(receiver: *mut End, other: *mut End) -> u32;
    fn hz_try_send(sender: *mut End, value: u64) -> u32;
    fn hz_send_by(sender: *mut End, value: u64, deadline: *const c_void) -> u32;
    fn hz_recv_by(receiver: *mut End, value: *mut u64, deadline: *const c_void) -> u32;
    fn hz_channel_try_receive(receiver: *mut End, value: *mut u64) -> u32;
    fn hz_sender_free(sender: *mut End) -> u32;
    fn hz_receiver_free(receiver: *mut End) -> u32;
}

/// What goes as one word.
pub trait Word {
    fn into_word(self) -> u64;
    /// # Safety
    /// The word comes from `into_word`, and is made a value once.
    unsafe fn of_word(word: u64) -> Self;
}

impl Word for u64 {
    fn into_word(self) -> u64 {
        self
    }

    unsafe fn of_word(word: u64) -> u64 {
        word
    }
}

impl Word for Box<u64> {
    fn into_word(self) -> u64 {
        Box::into_raw(self) as u64
    }

    unsafe fn of_word(word: u64) -> Box<u64> {
        unsafe { Box::from_raw(word as *mut u64) }
    }
}

impl Word for [u64; 4] {
    fn into_word(self) -> u64 {
        Box::into_raw(Box::new(self)) as u64
    }

    unsafe fn of_word(word: u64) -> [u64; 4] {
        unsafe { *Box::from_raw(word as *mut [u64; 4]) }
    }
}

/// An end of either side. A call has it alone, since it is not `Sync`.
pub struct Proved<T, const SENDS: bool>(UnsafeCell<End>, PhantomData<T>);

unsafe impl<T: Send, const SENDS: bool> Send for Proved<T, SENDS> {}

pub fn channel<T>() -> (Proved<T, true>, Proved<T, false>) {
    let (mut sender, mut receiver) = (NO_END, NO_END);
    assert_eq!(unsafe { hz_channel(&mut sender, &mut receiver) }, DONE);
    (
        Proved(sender.into(), PhantomData),
        Proved(receiver.into(), PhantomData),
    )
}

impl<T, const SENDS: bool> Clone for Proved<T, SENDS> {
    fn clone(&self) -> Self {
        let (mut other, call) = (
            NO_END,
            if SENDS {
                hz_sender_clone
            } else {
                hz_receiver_clone
            },
        );
        assert_eq!(unsafe { call(self.0.get(), &mut other) }, DONE);
        Proved(other.into(), PhantomData)
    }
}

impl<T, const SENDS: bool> Drop for Proved<T, SENDS> {
    fn drop(&mut self) {
        let call = if SENDS {
            hz_sender_free
        } else {
            hz_receiver_free
        };
        assert_eq!(unsafe { call(self.0.get()) }, DONE);
    }
}

impl<T: Word + Send> Sending<T> for Proved<T, true> {
    fn send(&self, value: T) {
        // (it does what the header's inline `hz_send` does)
        let word = value.into_word();
        let mut code = unsafe { hz_try_send(self.0.get(), word) };
        if code == AGAIN {
            code = unsafe { hz_send_by(self.0.get(), word, ptr::null()) };
        }
        assert_eq!(code, DONE, "a receiver is there");
    }
}

impl<T: Word + Send> Receiving<T> for Proved<T, false> {
    fn receive(&self) -> Option<T> {
        // (it does what the header's inline `hz_recv` does: a look, and then the call that sleeps)
        let mut word = 0;
        let mut code = unsafe { hz_channel_try_receive(self.0.get(), &mut word) };
        if code == NOTHING || code == AGAIN {
            code = unsafe { hz_recv_by(self.0.get(), &mut word, ptr::null()) };
        }
        (code == TOOK).then(|| unsafe { T::of_word(word) })
    }
}
