//! A sender.
use super::ends::ends;
use super::errors::{SendError, SendTimeoutError, TrySendError, written};
use super::future::SendFuture;
use super::shared::Shared;
use super::store::{Desk, Refused, Sending, Stand};
use std::borrow::Cow;
use std::panic::{RefUnwindSafe, UnwindSafe};
use std::sync::Arc;
use std::time::{Duration, Instant};

/// Sends values. A clone of it is another sender.
///
/// If one send returns before another one begins, in any threads, its value is received first.
///
/// **Locks of a send.** A sender is used by one thread at a time: a send waits for others that use the same sender. With a
/// bound or an audit, that holds for all senders together, and for jobs that come back. So it does for the first seventeen
/// values of each sender. At these locks a thread does not sleep, but yields. A send may also wait for the few steps in
/// which somebody adds the next segment, or takes memory for it. A send that finds no room waits for the receives under
/// way. If a receiver sleeps, or this sender has to, the send takes the lock of the list of sleepers. With bound 0 each
/// call takes the channel's one lock.
///
/// The seventeenth send of a sender and its drop take the locks under which ends are made and listed.
pub struct Sender<T> {
    pub(super) shared: Arc<Shared<T>>,
    stand: Stand<T>,
    pub(super) number: u64,
}

impl<T> Sender<T> {
    pub(super) fn new(shared: Arc<Shared<T>>) -> Sender<T> {
        let number = shared.senders.add();
        Sender::stand(shared, number)
    }

    /// A further sender, if any is there.
    fn join(shared: Arc<Shared<T>>) -> Option<Sender<T>> {
        let number = shared.senders.add_to_others()?;
        Some(Sender::stand(shared, number))
    }

    fn stand(shared: Arc<Shared<T>>, number: u64) -> Sender<T> {
        Sender {
            stand: Stand::default(),
            shared,
            number,
        }
    }

    /// Sends a value. If the channel is full, it sleeps until there is room. If the bound is 0, it sleeps until a receiver
    /// waits for the value or takes it. [Which locks it takes](Sender).
    ///
    /// # Errors
    /// The channel is closed, all receivers are gone, or there is no memory for it. The value is in the error.
    ///
    /// ```
    /// use hazbultra::channel::{unbounded, SendError};
    ///
    /// let (sender, receiver) = unbounded();
    /// assert_eq!(sender.send(1), Ok(()));
    /// drop(receiver);
    /// assert_eq!(sender.send(2), Err(SendError(2)));
    /// ```
    #[inline]
    pub fn send(&self, value: T) -> Result<(), SendError<T>> {
        self.send_until(value, None)
            .map_err(|why| SendError(why.into_inner()))
    }

    /// Sends a value if there is room now, or with bound 0 if a receiver waits. It never sleeps, but for
    /// [the locks of a send](Sender).
    ///
    /// # Errors
    /// The channel is full or closed, all receivers are gone, or there is no memory for it. The value is in the error.
    ///
    /// ```
    /// use hazbultra::channel::{bounded, TrySendError};
    ///
    /// let (sender, receiver) = bounded(1);
    /// assert_eq!(sender.try_send(1), Ok(()));
    /// assert_eq!(sender.try_send(2), Err(TrySendError::Full(2)));
    /// drop(receiver);
    /// assert_eq!(sender.try_send(3), Err(TrySendError::Disconnected(3)));
    /// ```
    pub fn try_send(&self, value: T) -> Result<(), TrySendError<T>> {
        self.put(value).map_err(|why| match why {
            Refused::Closed(value) => TrySendError::Disconnected(value),
            Refused::Full(value) | Refused::NoMemory(value) => TrySendError::Full(value),
        })
    }

    /// Does what [`send`](Sender::send) does, but sleeps no longer than this.
    ///
    /// # Errors
    /// Those of [`send`](Sender::send), and that it slept for so long. The value is in the error.
    ///
    /// ```
    /// use hazbultra::channel::{bounded, SendTimeoutError};
    /// use std::time::Duration;
    ///
    /// let (sender, _receiver) = bounded(1);
    /// sender.send(1).unwrap();
    /// let sent = sender.send_timeout(2, Duration::from_millis(1));
    /// assert_eq!(sent, Err(SendTimeoutError::Timeout(2)));
    /// ```
    pub fn send_timeout(&self, value: T, timeout: Duration) -> Result<(), SendTimeoutError<T>> {
        self.send_until(value, Instant::now().checked_add(timeout))
    }

    /// Does what [`send`](Sender::send) does, but sleeps until this time at most.
    ///
    /// # Errors
    /// As [`send_timeout`](Sender::send_timeout).
    ///
    /// ```
    /// use hazbultra::channel::bounded;
    /// use std::time::{Duration, Instant};
    ///
    /// let (sender, _receiver) = bounded(0);
    /// let soon = Instant::now() + Duration::from_millis(1);
    /// let refused = sender.send_deadline("nobody comes", soon).unwrap_err();
    /// assert_eq!(refused.into_inner(), "nobody comes");
    /// ```
    pub fn send_deadline(&self, value: T, deadline: Instant) -> Result<(), SendTimeoutError<T>> {
        self.send_until(value, Some(deadline))
    }

    /// Sends a value as [`send`](Sender::send) does, but a task waits, in any executor, and no thread sleeps. If the future
    /// is dropped before it is ready, it sends nothing. (With bound 0 a receiver may have taken the value before that.) A
    /// poll takes the [locks of a send](Sender), a drop that of the list of sleepers.
    ///
    /// ```
    /// # include!(concat!(env!("CARGO_MANIFEST_DIR"), "/tests/run/mod.rs"));
    /// # fn main() {
    /// let (sender, receiver) = hazbultra::channel::bounded(1);
    /// run(async {
    ///     sender.send_async("a letter").await.unwrap();
    ///     assert_eq!(receiver.recv_async().await, Ok("a letter"));
    /// });
    /// # }
    /// ```
    pub fn send_async(&self, value: T) -> SendFuture<'_, T> {
        SendFuture::new(Cow::Borrowed(self), value)
    }

    /// Does what [`send_async`](Sender::send_async) does. The future has this sender, and drops it when it is dropped.
    ///
    /// ```
    /// use std::future::Future;
    ///
    /// fn spawn(task: impl Future + Send + 'static) {
    ///     // (an executor runs it)
    /// #   drop(task);
    /// }
    /// let (sender, _receiver) = hazbultra::channel::unbounded();
    /// spawn(sender.into_send_async("a letter"));
    /// ```
    pub fn into_send_async<'a>(self, value: T) -> SendFuture<'a, T>
    where
        T: 'a,
    {
        SendFuture::new(Cow::Owned(self), value)
    }

    #[inline]
    fn send_until(&self, value: T, until: Option<Instant>) -> Result<(), SendTimeoutError<T>> {
        let sent = match self.stand.desk() {
            Some(desk) => match self.put_at(desk, value) {
                Ok(()) => return Ok(()),
                Err(sending) => self.put_further(sending),
            },
            None => self.send_without(value, until),
        };
        sent.map_err(|why| match why {
            Refused::Closed(value) => SendTimeoutError::Disconnected(value),
            Refused::Full(value) | Refused::NoMemory(value) => SendTimeoutError::Timeout(value),
        })
    }

    /// Sends a value of a sender that has no desk.
    #[inline(never)]
    fn send_without(&self, value: T, until: Option<Instant>) -> Result<(), Refused<T>> {
        match self.put_without(value) {
            Err(Refused::Full(value)) => self.wait(value, until),
            sent => sent,
        }
    }

    /// Waits for room, or for a receiver.
    #[cold]
    fn wait(&self, value: T, until: Option<Instant>) -> Result<(), Refused<T>> {
        let shared = &self.shared;
        let mut parcel = shared.parcel(value, self.number);
        let bell = parcel.bell();
        let list = bell.as_deref().unwrap_or(&shared.full);
        if let Some(sent) = list.wait(until, || parcel.look(shared, self.number)) {
            return sent;
        }
        let back = parcel.take_back(shared);
        back.map_or(Ok(()), |value| Err(Refused::Full(value)))
    }

    #[inline]
    pub(super) fn put(&self, value: T) -> Result<(), Refused<T>> {
        match self.stand.desk() {
            Some(desk) => self
                .put_at(desk, value)
                .or_else(|sending| self.put_further(sending)),
            None => self.put_without(value),
        }
    }

    /// Puts a value from the desk, if one call of the archive does that, and wakes a receiver.
    #[inline]
    fn put_at<'a>(&self, desk: &'a Desk<T>, value: T) -> Result<(), Sending<'a, T>> {
        desk.send(value)?;
        self.shared.empty.wake_one();
        Ok(())
    }

    /// Goes on with that.
    #[cold]
    #[inline(never)]
    fn put_further(&self, sending: Sending<'_, T>) -> Result<(), Refused<T>> {
        let Shared { store, empty, .. } = &*self.shared;
        sending.go_on().map_err(|why| store.row().refusal(why))?;
        empty.wake_one();
        Ok(())
    }

    fn put_without(&self, value: T) -> Result<(), Refused<T>> {
        self.shared.put(Some(&self.stand), value, self.number)
    }
}

ends!(Sender, WeakSender);

impl<T> Drop for Sender<T> {
    fn drop(&mut self) {
        self.shared.store.leave_stand(&self.stand);
        self.shared.drop_sender();
    }
}

written! {
    Debug [T] Sender<T>: |_| "Sender { .. }";
    Debug [T] WeakSender<T>: |_| "WeakSender { .. }";
}
