//! A receiver.
use super::ends::ends;
use super::errors::{RecvError, RecvTimeoutError, TryRecvError, written};
use super::future::{JobFuture, RecvFuture};
use super::iter::{Drain, Iter, TryIter};
use super::job::Job;
use super::shared::Shared;
use super::store::{At, Chair, Look, Taking, Ticket};
use crate::ffi::Outlet;
use std::borrow::Cow;
use std::panic::{RefUnwindSafe, UnwindSafe};
use std::sync::Arc;
use std::time::{Duration, Instant};

/// Receives values. A clone of it is another receiver, and each value goes to at most one receiver.
///
/// **Locks of a receive.** A receiver is used by one thread at a time: a receive waits for others that use the same
/// receiver, for a value that is just being sent, and for the few steps in which somebody adds a segment or leaves one. At
/// these locks a thread does not sleep, but yields. With an audit, receives are one after the other, under the lock of the
/// accounts. After each 1,024 values that it received, a receiver takes the locks under which ends are made and listed. A
/// receive that sleeps, or makes room for a sender that does, takes the lock of the list of sleepers. With bound 0 each
/// call takes the channel's one lock.
///
/// The first receive of a receiver and its drop take the locks under which ends are made and listed. The drop of the last
/// receiver drops what is left.
pub struct Receiver<T> {
    pub(super) shared: Arc<Shared<T>>,
    chair: Chair<T>,
    number: u64,
}

impl<T> Receiver<T> {
    pub(super) fn new(shared: Arc<Shared<T>>) -> Receiver<T> {
        let number = shared.receivers.add();
        Receiver::sit(shared, number)
    }

    /// A further receiver, if any is there.
    fn join(shared: Arc<Shared<T>>) -> Option<Receiver<T>> {
        let number = shared.receivers.add_to_others()?;
        Some(Receiver::sit(shared, number))
    }

    fn sit(shared: Arc<Shared<T>>, number: u64) -> Receiver<T> {
        Receiver {
            chair: Chair::new(),
            shared,
            number,
        }
    }

    #[inline]
    pub(super) fn take(&self, ticket: Option<&Ticket>) -> Look<T> {
        let taken = self.take_at_once();
        taken.map_or_else(|taking| self.take_further(taking, ticket), Look::Took)
    }

    /// Takes a value if there is a seat, and one call of the archive takes it.
    #[inline]
    fn take_at_once(&self) -> Result<T, Option<Taking<'_, T>>> {
        let seat = self.chair.get().ok_or(None)?;
        let (value, more) = seat.take().map_err(Some)?;
        if let Some(at) = more {
            self.go_on(at);
        }
        Ok(value)
    }

    #[inline(never)]
    fn go_on(&self, at: At<'_, Outlet<T>>) {
        let Shared { store, full, .. } = &*self.shared;
        store.row().go_on(at, self.number, full);
    }

    #[inline]
    fn take_further(&self, taking: Option<Taking<'_, T>>, ticket: Option<&Ticket>) -> Look<T> {
        let (shared, number) = (&self.shared, self.number);
        shared.take(taking, &self.chair, number, ticket)
    }

    pub(super) fn take_job(&self, ticket: Option<&Ticket>) -> Look<Job<T>> {
        match self.shared.take_job(&self.chair, self.number, ticket) {
            Look::Took(value) => Look::Took(Job::new(value, Arc::clone(&self.shared))),
            Look::Nothing => Look::Nothing,
            Look::Over => Look::Over,
        }
    }

    /// Receives a value if one is there now. It never sleeps, but for [the locks of a receive](Receiver).
    ///
    /// # Errors
    /// Nothing is there, or nothing comes any more.
    ///
    /// ```
    /// use hazbultra::channel::{unbounded, TryRecvError};
    ///
    /// let (sender, receiver) = unbounded();
    /// assert_eq!(receiver.try_recv(), Err(TryRecvError::Empty));
    /// sender.send(1).unwrap();
    /// drop(sender);
    /// assert_eq!(receiver.try_recv(), Ok(1));
    /// assert_eq!(receiver.try_recv(), Err(TryRecvError::Disconnected));
    /// ```
    #[inline]
    pub fn try_recv(&self) -> Result<T, TryRecvError> {
        now(self.take(None))
    }

    /// Receives a value. It sleeps until one comes. [Which locks it takes](Receiver).
    ///
    /// # Errors
    /// Nothing is left, and nothing comes any more.
    ///
    /// ```
    /// use hazbultra::channel::{unbounded, RecvError};
    /// use std::thread;
    ///
    /// let (sender, receiver) = unbounded();
    /// thread::spawn(move || sender.send("a letter"));
    /// assert_eq!(receiver.recv(), Ok("a letter"));
    /// assert_eq!(receiver.recv(), Err(RecvError)); // (the sender is gone)
    /// ```
    #[inline]
    pub fn recv(&self) -> Result<T, RecvError> {
        self.recv_until(None).map_err(|_| RecvError)
    }

    /// Does what [`recv`](Receiver::recv) does, but sleeps no longer than this.
    ///
    /// # Errors
    /// It received nothing until then, or nothing comes any more.
    ///
    /// ```
    /// use hazbultra::channel::{unbounded, RecvTimeoutError};
    /// use std::time::Duration;
    ///
    /// let (_sender, receiver) = unbounded::<u8>();
    /// let received = receiver.recv_timeout(Duration::from_millis(1));
    /// assert_eq!(received, Err(RecvTimeoutError::Timeout));
    /// ```
    pub fn recv_timeout(&self, timeout: Duration) -> Result<T, RecvTimeoutError> {
        self.recv_until(Instant::now().checked_add(timeout))
    }

    /// Does what [`recv`](Receiver::recv) does, but sleeps until this time at most.
    ///
    /// # Errors
    /// As [`recv_timeout`](Receiver::recv_timeout).
    ///
    /// ```
    /// use hazbultra::channel::unbounded;
    /// use std::time::{Duration, Instant};
    ///
    /// let (sender, receiver) = unbounded();
    /// sender.send(1).unwrap();
    /// let soon = Instant::now() + Duration::from_millis(1);
    /// assert_eq!(receiver.recv_deadline(soon), Ok(1));
    /// assert!(receiver.recv_deadline(soon).unwrap_err().is_timeout());
    /// ```
    pub fn recv_deadline(&self, deadline: Instant) -> Result<T, RecvTimeoutError> {
        self.recv_until(Some(deadline))
    }

    /// Receives a value as [`recv`](Receiver::recv) does, but a task waits, in any executor, and no thread sleeps. If the
    /// future is dropped before it is ready, it receives nothing. A poll takes the [locks of a receive](Receiver), a drop
    /// that of the list of sleepers.
    ///
    /// ```
    /// # include!(concat!(env!("CARGO_MANIFEST_DIR"), "/tests/run/mod.rs"));
    /// # fn main() {
    /// let (sender, receiver) = hazbultra::channel::unbounded();
    /// sender.send("a letter").unwrap();
    /// run(async {
    ///     assert_eq!(receiver.recv_async().await, Ok("a letter"));
    /// });
    /// # }
    /// ```
    pub fn recv_async(&self) -> RecvFuture<'_, T> {
        RecvFuture::new(Cow::Borrowed(self))
    }

    /// Does what [`recv_async`](Receiver::recv_async) does. The future has this receiver, and drops it when it is dropped.
    ///
    /// ```
    /// use std::future::Future;
    ///
    /// fn spawn(task: impl Future + Send + 'static) {
    ///     // (an executor runs it)
    /// #   drop(task);
    /// }
    /// let (_sender, receiver) = hazbultra::channel::unbounded::<u8>();
    /// spawn(receiver.clone().into_recv_async());
    /// ```
    pub fn into_recv_async<'a>(self) -> RecvFuture<'a, T>
    where
        T: 'a,
    {
        RecvFuture::new(Cow::Owned(self))
    }

    /// Receives a value as a job, which gives the value back to the channel unless it is [done](Job::done). It sleeps until
    /// one comes. It takes the [locks of a receive](Receiver). A job that gives its value back takes those of a
    /// [send](super::Sender).
    ///
    /// # Errors
    /// Nothing is left, nothing comes any more, and no other job is open.
    ///
    /// ```
    /// let (sender, receiver) = hazbultra::channel::unbounded();
    /// sender.send("a letter").unwrap();
    /// drop(receiver.recv_job().unwrap()); // (as by a panic: the value comes back)
    /// assert_eq!(receiver.recv_job().unwrap().done(), "a letter");
    /// ```
    pub fn recv_job(&self) -> Result<Job<T>, RecvError> {
        self.wait(None, Receiver::take_job).map_err(|_| RecvError)
    }

    /// Does what [`recv_job`](Receiver::recv_job) does, but sleeps no longer than this. So a worker may look at a flag that
    /// stops it.
    ///
    /// # Errors
    /// It received nothing until then, or nothing comes any more.
    ///
    /// ```
    /// use std::time::Duration;
    ///
    /// let (_sender, receiver) = hazbultra::channel::unbounded::<u8>();
    /// let received = receiver.recv_job_timeout(Duration::from_millis(1));
    /// assert!(received.unwrap_err().is_timeout());
    /// ```
    pub fn recv_job_timeout(&self, timeout: Duration) -> Result<Job<T>, RecvTimeoutError> {
        self.wait(Instant::now().checked_add(timeout), Receiver::take_job)
    }

    /// Does what [`recv_job`](Receiver::recv_job) does, but sleeps until this time at most.
    ///
    /// # Errors
    /// As [`recv_job_timeout`](Receiver::recv_job_timeout).
    ///
    /// ```
    /// use std::time::{Duration, Instant};
    ///
    /// let (sender, receiver) = hazbultra::channel::unbounded();
    /// sender.send(1).unwrap();
    /// let soon = Instant::now() + Duration::from_millis(1);
    /// assert_eq!(receiver.recv_job_deadline(soon).unwrap().done(), 1);
    /// ```
    pub fn recv_job_deadline(&self, deadline: Instant) -> Result<Job<T>, RecvTimeoutError> {
        self.wait(Some(deadline), Receiver::take_job)
    }

    /// Receives a job as [`recv_job`](Receiver::recv_job) does, but a task waits, as with
    /// [`recv_async`](Receiver::recv_async).
    ///
    /// ```
    /// # include!(concat!(env!("CARGO_MANIFEST_DIR"), "/tests/run/mod.rs"));
    /// # fn main() {
    /// let (sender, receiver) = hazbultra::channel::unbounded();
    /// sender.send("a letter").unwrap();
    /// run(async {
    ///     let job = receiver.recv_job_async().await.unwrap();
    ///     assert_eq!(job.done(), "a letter");
    /// });
    /// # }
    /// ```
    pub fn recv_job_async(&self) -> JobFuture<'_, T> {
        JobFuture::new(Cow::Borrowed(self))
    }

    /// Receives a value as a job if one is there now. It never sleeps, but for [the locks of a receive](Receiver).
    ///
    /// # Errors
    /// Nothing is there, or nothing comes any more.
    ///
    /// ```
    /// let (sender, receiver) = hazbultra::channel::unbounded();
    /// assert!(receiver.try_recv_job().unwrap_err().is_empty());
    /// sender.send(1).unwrap();
    /// assert_eq!(receiver.try_recv_job().unwrap().done(), 1);
    /// ```
    pub fn try_recv_job(&self) -> Result<Job<T>, TryRecvError> {
        now(self.take_job(None))
    }

    #[inline]
    fn recv_until(&self, until: Option<Instant>) -> Result<T, RecvTimeoutError> {
        let taken = self.take_at_once();
        taken.or_else(|taking| self.recv_further(taking, until))
    }

    #[inline(never)]
    fn recv_further(
        &self,
        taking: Option<Taking<'_, T>>,
        until: Option<Instant>,
    ) -> Result<T, RecvTimeoutError> {
        match self.take_further(taking, None) {
            Look::Took(value) => Ok(value),
            _ => self.wait(until, Receiver::take),
        }
    }

    /// Calls `take` until it takes something, a value or a job, or the channel is over, or this time has come. The thread
    /// sleeps between two calls.
    #[cold]
    fn wait<G>(
        &self,
        until: Option<Instant>,
        take: impl Fn(&Self, Option<&Ticket>) -> Look<G>,
    ) -> Result<G, RecvTimeoutError> {
        let shared = &self.shared;
        let ticket = shared.arrive(false);
        let ticket = ticket.as_ref();
        let list = ticket.map_or(&shared.empty, |it| &it.bell);
        let look = || match take(self, ticket) {
            Look::Nothing => None,
            look => Some(look),
        };
        loop {
            match list.wait(until, look) {
                Some(Look::Took(value)) => return Ok(value),
                Some(Look::Over) => {
                    shared.abandon(ticket);
                    return Err(RecvTimeoutError::Disconnected);
                }
                Some(Look::Nothing) | None => {}
            }
            if until.is_some_and(|until| Instant::now() >= until) && shared.give_up(ticket) {
                return Err(RecvTimeoutError::Timeout);
            }
        }
    }

    /// Iterates over the values that calls of [`recv`](Receiver::recv) return, until nothing comes any more.
    ///
    /// ```
    /// let (sender, receiver) = hazbultra::channel::unbounded();
    /// (0..3).for_each(|it| sender.send(it).unwrap());
    /// drop(sender);
    /// assert!(receiver.iter().eq(0..3));
    /// ```
    pub fn iter(&self) -> Iter<'_, T> {
        Iter { receiver: self }
    }

    /// Iterates over the values that calls of [`try_recv`](Receiver::try_recv) return, until one returns an error.
    ///
    /// ```
    /// let (sender, receiver) = hazbultra::channel::unbounded();
    /// (0..3).for_each(|it| sender.send(it).unwrap());
    /// assert!(receiver.try_iter().eq(0..3));
    /// ```
    pub fn try_iter(&self) -> TryIter<'_, T> {
        TryIter { receiver: self }
    }

    /// Iterates as [`try_iter`](Receiver::try_iter) does, but over no more values than wait now. So it ends, also if
    /// senders go on. If the iterator is dropped, values that it has not yielded stay.
    ///
    /// ```
    /// let (sender, receiver) = hazbultra::channel::unbounded();
    /// (0..3).for_each(|it| sender.send(it).unwrap());
    /// let values: Vec<_> = receiver.drain().inspect(|it| sender.send(it + 10).unwrap()).collect();
    /// assert_eq!((values, receiver.len()), (vec![0, 1, 2], 3));
    /// ```
    pub fn drain(&self) -> Drain<'_, T> {
        Drain {
            receiver: self,
            left: self.len(),
        }
    }
}

fn now<G>(look: Look<G>) -> Result<G, TryRecvError> {
    match look {
        Look::Took(value) => Ok(value),
        Look::Over => Err(TryRecvError::Disconnected),
        Look::Nothing => Err(TryRecvError::Empty),
    }
}

ends!(Receiver, WeakReceiver);

impl<T> Drop for Receiver<T> {
    fn drop(&mut self) {
        self.shared.store.leave_chair(&self.chair);
        self.shared.drop_receiver();
    }
}

written! {
    Debug [T] Receiver<T>: |_| "Receiver { .. }";
    Debug [T] WeakReceiver<T>: |_| "WeakReceiver { .. }";
}
