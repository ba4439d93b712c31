//! A lock for some dozen steps, for a thing that mostly one thread uses.
//!
//! To take it costs one access that no other thread can come between, and to leave it a plain store. A lock of the standard
//! library makes two such accesses, since a thread may sleep at it. Here a thread pauses, and then yields.
use super::ends::{pause, pause_for_value};
use std::cell::UnsafeCell;
use std::ops::{Deref, DerefMut};
use std::panic::{RefUnwindSafe, UnwindSafe};
use std::sync::atomic::AtomicU32;
use std::sync::atomic::Ordering::{Acquire, Relaxed, Release};

pub(crate) struct Latch<T> {
    /// 1 while it is taken.
    taken: AtomicU32,
    value: UnsafeCell<T>,
}

// SAFETY: who took the latch has the value alone. It may be in any thread.
unsafe impl<T: Send> Sync for Latch<T> {}

// (a panic leaves the latch, and no value is half changed under one)
impl<T> UnwindSafe for Latch<T> {}
impl<T> RefUnwindSafe for Latch<T> {}

/// The value of a latch that this thread took.
pub(crate) struct Held<'a, T>(&'a Latch<T>);

// SAFETY: it is a reference to the value.
unsafe impl<T: Sync> Sync for Held<'_, T> {}

impl<T> Latch<T> {
    pub(crate) fn new(value: T) -> Latch<T> {
        Latch {
            taken: AtomicU32::new(0),
            value: UnsafeCell::new(value),
        }
    }

    #[inline]
    pub(crate) fn try_hold(&self) -> Option<Held<'_, T>> {
        // (a `Held` is made only if the latch was free, since its drop leaves it)
        let was_taken = self.taken.fetch_or(1, Acquire) & 1 != 0; // (one instruction tests and sets the bit)
        (!was_taken).then(|| Held(self))
    }

    #[inline]
    pub(crate) fn hold(&self) -> Held<'_, T> {
        match self.try_hold() {
            Some(held) => held,
            None => self.hold_later(),
        }
    }

    #[cold]
    #[inline(never)]
    fn hold_later(&self) -> Held<'_, T> {
        let mut turn = 0;
        loop {
            pause(turn);
            turn += 1;
            if self.taken.load(Relaxed) != 0 {
                continue;
            }
            if let Some(held) = self.try_hold() {
                return held;
            }
        }
    }
}

impl<T> Held<'_, T> {
    /// Leaves the latch while a receiver waits for the sender of a value, and takes it again.
    pub(crate) fn pause(self, turn: u32) -> Self {
        let latch = self.0;
        drop(self);
        pause_for_value(turn);
        latch.hold()
    }
}

impl<T> Deref for Held<'_, T> {
    type Target = T;

    #[inline]
    fn deref(&self) -> &T {
        // SAFETY: this thread took the latch, and has not left it.
        unsafe { &*self.0.value.get() }
    }
}

impl<T> DerefMut for Held<'_, T> {
    #[inline]
    fn deref_mut(&mut self) -> &mut T {
        // SAFETY: this thread took the latch, and has not left it. There is one `Held`, which is borrowed alone.
        unsafe { &mut *self.0.value.get() }
    }
}

impl<T> Drop for Held<'_, T> {
    #[inline]
    fn drop(&mut self) {
        self.0.taken.store(0, Release);
    }
}

// These make no call of the archive. So Miri can run them.
#[cfg(test)]
mod tests {
    use super::Latch;
    use std::thread;

    #[test]
    fn a_latch_is_held_once() {
        let latch = Latch::new(7);
        let held = latch.hold();
        assert!(latch.try_hold().is_none());
        assert!(latch.try_hold().is_none(), "the first try left nothing");
        drop(held);
        assert_eq!(latch.try_hold().map(|it| *it), Some(7));
    }

    #[test]
    fn threads_take_turns() {
        let latch = Latch::new(0);
        let add = || (0..100).for_each(|_| *latch.hold() += 1);
        thread::scope(|scope| {
            [(); 3]
                .map(|()| scope.spawn(add))
                .map(|it| it.join().unwrap())
        });
        assert_eq!(*latch.hold(), 300);
    }
}
