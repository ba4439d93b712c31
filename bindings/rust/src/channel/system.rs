//! The wait list's system in the crate: the standard library.
use super::wait::{Lock, System, WaitList, Word, drop_said};
use std::any::Any;
use std::hint;
use std::panic::{AssertUnwindSafe, catch_unwind, resume_unwind};
use std::sync::atomic::{AtomicUsize, Ordering::SeqCst};
use std::sync::{Mutex, MutexGuard, PoisonError};
use std::thread::{self, Thread};
use std::time::Instant;

pub(super) type Waiters = WaitList<Std>;

pub(super) struct Std;

impl System for Std {
    type Word = AtomicUsize;
    type Lock<T> = Mutex<T>;
    type Thread = Thread;

    const LOOKS: u32 = 11;

    fn pause(look: u32) {
        // (with less, threads that find nothing take the lines of memory from those that work)
        if look < 8 {
            (0..1 << look).for_each(|_| hint::spin_loop());
        } else {
            thread::yield_now();
        }
    }

    fn current() -> Thread {
        thread::current()
    }

    fn unpark(thread: &Thread) {
        thread.unpark();
    }

    fn park(until: Option<Instant>) {
        match until {
            None => thread::park(),
            Some(until) => thread::park_timeout(until.saturating_duration_since(Instant::now())),
        }
    }

    fn is_past(until: Option<Instant>) -> bool {
        until.is_some_and(|until| Instant::now() >= until)
    }
}

impl Word for AtomicUsize {
    fn new(value: usize) -> Self {
        AtomicUsize::new(value)
    }

    #[inline]
    fn load(&self) -> usize {
        self.load(SeqCst)
    }

    fn store(&self, value: usize) {
        self.store(value, SeqCst);
    }
}

/// On lines of memory of its own, so that whoever writes it does not slow down those who read what stands beside it.
#[repr(align(128))]
pub(super) struct Line<T>(pub(super) T);

/// Locks it, also if somebody panicked under the lock: no value is half changed there.
#[inline]
pub(super) fn lock<T>(of: &Mutex<T>) -> MutexGuard<'_, T> {
    of.lock().unwrap_or_else(PoisonError::into_inner)
}

impl<T> Lock<T> for Mutex<T> {
    fn new(value: T) -> Self {
        Mutex::new(value)
    }

    fn hold<R>(&self, work: impl FnOnce(&mut T) -> R) -> R {
        work(&mut lock(self))
    }
}

/// Does pieces of work that may panic, such as the drops of values, so that each is done. It keeps one panic.
#[derive(Default)]
pub(super) struct Panics(Option<Box<dyn Any + Send>>);

impl Panics {
    pub(super) fn contain(&mut self, work: impl FnOnce()) {
        if let Err(why) = catch_unwind(AssertUnwindSafe(work)) {
            self.0.replace(why).into_iter().for_each(drop_said);
        }
    }

    pub(super) fn drop_each<T>(&mut self, values: impl IntoIterator<Item = T>) {
        values.into_iter().for_each(|it| self.contain(|| drop(it)));
    }

    /// Goes on with the panic that it keeps, if there is one and no other is under way.
    pub(super) fn resume(self) {
        match self.0 {
            Some(why) if !thread::panicking() => resume_unwind(why),
            why => why.into_iter().for_each(drop_said),
        }
    }
}
