//! A value that comes back unless its work was done.
use super::audit::GIVEN_BACK;
use super::errors::written;
use super::shared::Shared;
use std::ops::{Deref, DerefMut};
use std::sync::Arc;

/// A received value, which goes back to the channel when this is dropped, also by a panic, unless [`done`](Job::done) was
/// called. [`Receiver::recv_job`](super::Receiver::recv_job) and the calls beside it make it.
///
/// While a job is open the channel does not end: receivers sleep, since the value may come back. So a thread that holds a
/// job, and waits on the same channel for its end, waits for ever.
///
/// The value comes back as the last one, also if the channel is full. If there is no memory for it, or no receiver is left,
/// it is dropped.
///
/// `catch_unwind` asks that what its closure borrows is `UnwindSafe`, since a panic may leave it half changed. Boxed closures
/// and values with cells are not. For these wrap the closure in [`AssertUnwindSafe`](std::panic::AssertUnwindSafe). What the
/// worker changed in the value before it panicked comes back with it.
///
/// ```
/// use std::panic::{catch_unwind, AssertUnwindSafe};
///
/// type Task = Box<dyn Fn() + Send>;
/// let (sender, receiver) = hazbultra::channel::unbounded::<Task>();
/// sender.send(Box::new(|| panic!("a bad task"))).unwrap();
/// let work = || {
///     let job = receiver.recv_job().unwrap();
///     (*job)();
///     drop(job.done());
/// };
/// assert!(catch_unwind(AssertUnwindSafe(work)).is_err());
/// assert_eq!(receiver.len(), 1); // (the task came back, so count its tries)
/// ```
#[must_use = "its drop gives the value back"]
pub struct Job<T> {
    /// (there until it is done)
    value: Option<T>,
    shared: Arc<Shared<T>>,
}

impl<T> Job<T> {
    pub(super) fn new(value: T, shared: Arc<Shared<T>>) -> Job<T> {
        Job {
            value: Some(value),
            shared,
        }
    }

    /// Ends the job, and returns the value, which does not come back.
    #[allow(clippy::missing_panics_doc, reason = "the value is there until then")]
    pub fn done(mut self) -> T {
        self.value.take().expect("it is done once")
    }
}

impl<T> Deref for Job<T> {
    type Target = T;

    fn deref(&self) -> &T {
        self.value.as_ref().expect("it is there until it is done")
    }
}

impl<T> DerefMut for Job<T> {
    fn deref_mut(&mut self) -> &mut T {
        self.value.as_mut().expect("it is there until it is done")
    }
}

impl<T> Drop for Job<T> {
    fn drop(&mut self) {
        let value = self.value.take();
        let refused = value.and_then(|value| self.shared.put(None, value, GIVEN_BACK).err());
        self.shared.end_job();
        drop(refused); // (last, since the drop of the value may panic)
    }
}

written! { Debug [T] Job<T>: |_| "Job(..)"; }
