//! Runs the source of the channel's wait list in each order of its steps, up to a number of preemptions. It finds that no
//! wake-up is lost.
//!
//! Each sender sends one value, and each receiver takes one. A receiver waits as a thread or as a task. Some may give
//! up, or be dropped, at any time, also after they were woken. In no order is a value left while a receiver sleeps for
//! ever. `tests/wrong_bodies.py` tries wrong changes of that source, each of which this search refuses.
mod orders;
#[allow(
    dead_code,
    clippy::new_without_default,
    reason = "it is a file of the crate"
)]
#[path = "../src/channel/wait.rs"]
mod wait;

use orders::{Bodies, either, rest_until, search, step, step_when};
use std::cell::Cell;
use std::panic::resume_unwind;
use std::sync::atomic::{AtomicBool, AtomicUsize, Ordering::SeqCst};
use std::sync::{Arc, Mutex};
use std::task::{Poll, Wake, Waker};
use std::time::Instant;
use wait::{Lock, System, WaitList, Word};

/// A system in which each access of a shared word, each lock and each wake-up is a step of the search.
struct Model;

struct Stepped(AtomicUsize);

impl Word for Stepped {
    fn new(value: usize) -> Self {
        Stepped(AtomicUsize::new(value))
    }

    fn load(&self) -> usize {
        step();
        self.0.load(SeqCst)
    }

    fn store(&self, value: usize) {
        step();
        self.0.store(value, SeqCst);
    }
}

struct Locked<T> {
    value: Mutex<T>,
    is_held: Arc<AtomicBool>,
}

impl<T> Lock<T> for Locked<T> {
    fn new(value: T) -> Self {
        Locked {
            value: Mutex::new(value),
            is_held: Arc::default(),
        }
    }

    fn hold<R>(&self, work: impl FnOnce(&mut T) -> R) -> R {
        let is_held = Arc::clone(&self.is_held);
        step_when(move || !is_held.load(SeqCst));
        self.is_held.store(true, SeqCst);
        let result = work(&mut self.value.lock().unwrap());
        self.is_held.store(false, SeqCst);
        result
    }
}

thread_local! {
    /// Whether `unpark` has left this thread a token.
    static TOKEN: Arc<AtomicBool> = Arc::default();
    /// Whether its time to wait is over.
    static IS_PAST: Cell<bool> = const { Cell::new(false) };
}

impl System for Model {
    type Word = Stepped;
    type Lock<T> = Locked<T>;
    type Thread = Arc<AtomicBool>;

    const LOOKS: u32 = 1;

    fn pause(_: u32) {}

    fn current() -> Arc<AtomicBool> {
        TOKEN.with(Arc::clone)
    }

    fn unpark(token: &Arc<AtomicBool>) {
        step();
        token.store(true, SeqCst);
    }

    /// Waits for a token. A thread with a time limit may go on without one. Then its time is over.
    fn park(until: Option<Instant>) {
        let (token, has_time) = (Self::current(), until.is_some());
        rest_until(move || has_time || token.load(SeqCst));
        if !Self::current().swap(false, SeqCst) {
            IS_PAST.set(true);
        }
    }

    fn is_past(until: Option<Instant>) -> bool {
        until.is_some() && (IS_PAST.get() || (either() && !IS_PAST.replace(true)))
    }
}

/// A channel whose values are only counted.
struct Channel {
    values: AtomicUsize,
    is_closed: AtomicBool,
    list: WaitList<Model>,
}

impl Channel {
    fn send(&self) {
        step();
        self.values.fetch_add(1, SeqCst);
        self.list.wake_one();
    }

    fn close(&self) {
        self.is_closed.store(true, SeqCst);
        self.list.wake_all();
    }

    fn look(&self) -> Option<()> {
        step();
        let less = |values: usize| values.checked_sub(1);
        let is_taken = self.values.fetch_update(SeqCst, SeqCst, less).is_ok();
        (is_taken || self.is_closed.load(SeqCst)).then_some(())
    }
}

/// What kind of receiver waits.
#[derive(Clone, Copy, PartialEq, Debug)]
enum Kind {
    /// A thread that waits without a time limit.
    Thread,
    /// A thread that gives up after some time.
    Timed,
    /// A task that is polled until it has a value.
    Task,
    /// A task that may be dropped at any time.
    Dropped,
    /// A task whose waker panics. It ends then.
    Panicking,
}

struct Bell {
    is_rung: AtomicBool,
    panics: bool,
}

impl Wake for Bell {
    fn wake(self: Arc<Self>) {
        step();
        self.is_rung.store(true, SeqCst);
        if self.panics {
            resume_unwind(Box::new("a waker"));
        }
    }
}

fn receive(channel: &Channel, kind: Kind) {
    Model::current().store(false, SeqCst);
    IS_PAST.set(false);
    match kind {
        Kind::Thread => channel.list.wait(None, || channel.look()).unwrap(),
        Kind::Timed => drop(channel.list.wait(Some(Instant::now()), || channel.look())),
        _ => receive_as_task(channel, kind),
    }
}

fn receive_as_task(channel: &Channel, kind: Kind) {
    let mut place = None;
    loop {
        let bell = Arc::new(Bell {
            is_rung: AtomicBool::new(false),
            panics: kind == Kind::Panicking,
        });
        let waker = Waker::from(Arc::clone(&bell));
        let polled = channel.list.poll(&mut place, &waker, || channel.look());
        if polled == Poll::Ready(()) {
            return;
        }
        let may_drop = kind == Kind::Dropped;
        let is_dropped = may_drop && either();
        if !is_dropped {
            step_when(move || bell.is_rung.load(SeqCst));
        }
        if kind == Kind::Panicking {
            return; // (it was woken, and does not call `leave`)
        }
        if is_dropped || (may_drop && either()) {
            return place.map_or((), |place| channel.list.leave(place));
        }
    }
}

#[test]
fn one_or_two_receivers_lose_no_wake_up() {
    use Kind::{Dropped, Panicking, Task, Thread, Timed};
    search_case(3, 0, &[Thread, Task]);
    search_case(100, 1, &[Thread]);
    search_case(100, 1, &[Timed]);
    search_case(100, 1, &[Dropped]);
    search_case(2, 2, &[Thread, Thread]);
    search_case(2, 2, &[Thread, Timed]);
    search_case(2, 2, &[Thread, Dropped]);
    search_case(2, 2, &[Task, Task]);
    search_case(2, 1, &[Panicking, Thread]);
}

#[test]
fn three_receivers_lose_no_wake_up() {
    use Kind::{Dropped, Task, Thread, Timed};
    search_case(1, 2, &[Thread, Thread, Timed]);
    search_case(1, 2, &[Thread, Task, Dropped]);
}

/// Searches all orders of these threads. When no other can go on, and no value is left, the last thread closes the channel.
fn search_case(preemptions: usize, senders: usize, kinds: &'static [Kind]) {
    let found = search(preemptions, || {
        let channel = Arc::new(Channel {
            values: AtomicUsize::new(0),
            is_closed: AtomicBool::new(false),
            list: WaitList::new(),
        });
        let body = |name: String, work: fn(&Channel, Kind), kind| {
            let channel = Arc::clone(&channel);
            let work: Box<dyn FnOnce() + Send> = Box::new(move || work(&channel, kind));
            (name, work)
        };
        let senders = (0..senders).map(|_| body("sender".into(), |it, _| it.send(), Kind::Thread));
        let receivers = kinds
            .iter()
            .map(|kind| body(format!("{kind:?}"), receive, *kind));
        let threads = senders.chain(receivers).collect();
        let is_empty = Arc::clone(&channel);
        let last = Arc::clone(&channel);
        Bodies {
            threads,
            last: (
                Box::new(move || is_empty.values.load(SeqCst) == 0),
                Box::new(move || last.close()),
            ),
        }
    });
    println!("{senders} {kinds:?}: {} orders", found.unwrap());
}
