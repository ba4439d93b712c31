//! A channel that takes any number of values, and whose receivers sleep until one comes.
//!
//! Its core is proved: the order of the values, and who takes which. Its calls are named as in `crossbeam-channel`, and do the
//! same.
//!
//! ```
//! use hazbultra::channel;
//! use std::thread;
//!
//! let (sender, receiver) = channel::unbounded();
//! let workers: Vec<_> = (0..4)
//!     .map(|_| receiver.clone())
//!     .map(|receiver| thread::spawn(move || receiver.iter().sum::<u64>()))
//!     .collect();
//! (1..=100).for_each(|number| sender.send(number).unwrap());
//! drop(sender); // the workers end when nothing is left
//! let sum: u64 = workers.into_iter().map(|it| it.join().unwrap()).sum();
//! assert_eq!(sum, 5050);
//! ```
//!
//! # What is promised
//!
//! - At most one receiver gets a value, and none is lost while there is a receiver. (Without memory that of a [`Job`] may
//!   be.) When all senders are dropped, or the channel is closed, receivers get what is left, and then an error. When all
//!   receivers are dropped, what is left is dropped, and senders get their values back.
//! - **One order.** If one send returns before another one begins, in any threads, its value is received first. ([`bounded`]
//!   names one exception, with the bound 0.)
//! - A receiver finds nothing only if there was a moment, during its call, at which nothing was left. A sender finds no
//!   room only if there was a moment, during its call, at which as many values waited as the bound allows.
//! - No value waits while a receiver sleeps. A wake-up that its receiver does not use goes to the next one: after a
//!   timeout, a dropped future, or a waker that panics.
//! - Memory is in proportion to the values that wait. An end that does nothing keeps the memory of later values only until
//!   some thousand of them are received.
//! - What takes a lock is said at [`Sender`] and [`Receiver`].
//!
//! # How it is built
//!
//! The values stand in a *row*, which is a channel of the proved archive. The archive decides in which order they stand, who
//! takes which, and when nothing is left. It never waits. This crate sleeps, wakes, and keeps the bound, the jobs and the
//! audit. A value of up to eight bytes goes as it is. Each other one stands in a slot, whose address goes. So no value is
//! boxed. A table in the crate's README says what is proved, and what is tested.
//!
//! A channel of bound 0 has no row: each value goes from hand to hand, under one lock.
mod audit;
mod ends;
mod errors;
mod future;
mod iter;
mod job;
mod parcel;
mod receiver;
mod sender;
mod shared;
mod store;
mod system;
mod wait;

pub use audit::{Account, Audit, Fate, Totals};
pub use errors::{
    RecvError, RecvTimeoutError, SendError, SendTimeoutError, TryRecvError, TrySendError,
};
pub use future::{JobFuture, RecvFuture, SendFuture};
pub use iter::{Drain, IntoIter, Iter, TryIter};
pub use job::Job;
pub use receiver::{Receiver, WeakReceiver};
pub use sender::{Sender, WeakSender};

use shared::Shared;
use std::sync::Arc;
use store::Plan;

/// A channel without a bound: a send never waits for room.
///
/// ```
/// let (sender, receiver) = hazbultra::channel::unbounded();
/// (0..1000).for_each(|it| sender.send(it).unwrap());
/// assert_eq!(receiver.recv(), Ok(0));
/// ```
#[must_use]
pub fn unbounded<T>() -> (Sender<T>, Receiver<T>) {
    Builder::new().build()
}

/// A channel in which at most so many values wait. A send waits for room.
///
/// If the bound is 0, both sides meet: a send returns when a receiver waits for the value or takes it. A value may be left for
/// a future that waits. If that is dropped, the next receiver gets the value, perhaps after later ones.
///
/// ```
/// use hazbultra::channel::bounded;
/// use std::thread;
///
/// let (sender, receiver) = bounded(0);
/// assert!(sender.try_send(1).unwrap_err().is_full()); // (nobody waits)
/// let taker = thread::spawn(move || receiver.recv());
/// sender.send(2).unwrap();
/// assert_eq!(taker.join().unwrap(), Ok(2));
/// ```
#[must_use]
pub fn bounded<T>(bound: usize) -> (Sender<T>, Receiver<T>) {
    Builder::new().bound(bound).build()
}

/// Makes a channel with more settings.
///
/// ```
/// use hazbultra::channel::Builder;
///
/// let (sender, receiver, audit) = Builder::new().bound(10).audited();
/// sender.send("a letter").unwrap();
/// assert_eq!(receiver.recv(), Ok("a letter"));
/// drop(receiver);
///
/// let [account] = &audit.accounts()[..] else { panic!("all of it is in one account") };
/// assert_eq!(account.fates[0].sender, Some(sender.number()));
/// assert_eq!(audit.totals().taken.values().sum::<u64>(), 1);
/// ```
#[derive(Clone, Copy, Debug, Default)]
#[must_use = "it makes no channel until `build` or `audited` is called"]
pub struct Builder {
    bound: Option<usize>,
    account: Option<usize>,
}

impl Builder {
    /// A channel without a bound.
    pub fn new() -> Builder {
        Builder::default()
    }

    /// At most so many values wait, as with [`bounded`].
    pub fn bound(self, bound: usize) -> Builder {
        Builder {
            bound: Some(bound),
            ..self
        }
    }

    /// So many values go into each account of an [audit](Builder::audited), 1 or more. By default it is 1,024.
    ///
    /// # Panics
    /// The number is 0.
    #[track_caller]
    pub fn account(self, values: usize) -> Builder {
        assert!(values > 0, "1 value or more");
        Builder {
            account: Some(values),
            ..self
        }
    }

    /// Makes the channel.
    #[must_use]
    pub fn build<T>(self) -> (Sender<T>, Receiver<T>) {
        self.make(None)
    }

    /// Makes the channel with its audit. Each value is in a box, with the number of its sender, until it is taken. Sends are
    /// one after the other, and so are receives. With bound 0 there are no accounts, but [totals](Audit::totals).
    #[must_use]
    pub fn audited<T>(self) -> (Sender<T>, Receiver<T>, Audit<T>) {
        let (audit, ledger) = Audit::new(self.account.unwrap_or(1024));
        let (sender, receiver) = self.make(Some(ledger));
        (sender, receiver, audit)
    }

    fn make<T>(self, audit: Option<Arc<audit::Ledger<T>>>) -> (Sender<T>, Receiver<T>) {
        let shared = Arc::new(Shared::new(Plan {
            bound: self.bound,
            audit,
        }));
        (Sender::new(Arc::clone(&shared)), Receiver::new(shared))
    }
}
