//! Tests the channel for long: `cargo run --release --example soak -- WHAT SECONDS VALUES`. WHAT is one of these:
//!
//! - `ends`: values go through channels of many setups, while ends are cloned and dropped at random, calls give up after some
//!   time, futures are dropped, and workers and wakers panic. No value is lost or done twice. All come in one order, unless
//!   given back: what was sent after the send of another had returned is not received before it. Audits agree.
//! - `idle`: 64 receivers sleep, and take next to no processor time.
//! - `memory`: values go by an idle sender and an idle receiver, with and without an audit. Memory does not grow.
//! - `full`: a send that gets no memory returns its value, and all others are received. It needs a limit: `ulimit -v 200000`.
use hazbultra::channel::{Builder, Receiver, RecvError, RecvTimeoutError, unbounded};
use hazbultra::channel::{SendError, SendTimeoutError, Sender, TrySendError};
use run::{poll, run};
use std::cmp::max;
use std::collections::BTreeMap;
use std::future::Future;
use std::panic::{AssertUnwindSafe, catch_unwind, resume_unwind};
use std::sync::atomic::{AtomicU64, Ordering::Relaxed};
use std::sync::{Arc, Mutex, MutexGuard};
use std::task::{Poll, Wake};
use std::time::{Duration, Instant};
use std::{env, fs, mem, thread};

#[path = "../tests/run/mod.rs"]
mod run;

/// How many threads send through a channel. As many receive.
const THREADS: u64 = 4;
/// How many channels are in use at a time.
const AT_A_TIME: u64 = 8;

#[derive(Clone, Copy)]
struct Value {
    sender: u64,
    /// How many values this sender sent before.
    place: u64,
    /// Whether a worker panicked with the value. Then the value may come later than others.
    came_back: bool,
}

/// A call that sent or received a value, and when it began and ended.
#[derive(Clone, Copy, PartialEq, Eq, PartialOrd, Ord)]
struct Passage {
    value: (u64, u64),
    began: Instant,
    ended: Instant,
    came_back: bool,
}

impl Passage {
    fn new(value: Value, began: Instant) -> Passage {
        Passage {
            value: (value.sender, value.place),
            began,
            ended: Instant::now(),
            came_back: value.came_back,
        }
    }
}

/// A source of numbers that are random enough (xorshift).
struct Dice(u64);

impl Dice {
    fn under(&mut self, sides: u64) -> u64 {
        self.0 ^= self.0 << 13;
        self.0 ^= self.0 >> 7;
        self.0 ^= self.0 << 17;
        self.0 % sides
    }

    fn one_of(&mut self, sides: u64) -> bool {
        self.under(sides) == 0
    }
}

/// How many values each end sent or took, by its number. `passages` has first the sends, and then the receives. If a value
/// was given back it has only the last receive.
#[derive(Default)]
struct Tally {
    sent: BTreeMap<u64, u64>,
    taken: BTreeMap<u64, u64>,
    given_back: u64,
    passages: [Vec<Passage>; 2],
}

fn open(tally: &Mutex<Tally>) -> MutexGuard<'_, Tally> {
    tally.lock().expect("no other thread failed")
}

/// A waker that panics.
struct Panicking;

impl Wake for Panicking {
    fn wake(self: Arc<Self>) {
        resume_unwind(Box::new("a waker"));
    }
}

/// Polls a future once, with a waker that panics, and drops it.
fn poll_and_drop<F: Future + Unpin>(mut future: F) -> Option<F::Output> {
    match poll(&mut future, &Arc::new(Panicking)) {
        Poll::Ready(result) => Some(result),
        Poll::Pending => None,
    }
}

/// Sends a value in one of several ways. Returns whether it was sent.
fn try_one_way(sender: &Sender<Value>, value: Value, dice: &mut Dice) -> bool {
    // (with bound 0 a future that is dropped may have given its value)
    let may_drop = sender.capacity() != Some(0);
    let sent = match dice.under(20) {
        0 if may_drop => poll_and_drop(sender.send_async(value)).map(|it| it.is_ok()),
        1 => Some(run(sender.send_async(value)).is_ok()),
        2 => match sender.try_send(value) {
            Err(TrySendError::Full(_)) => None,
            sent => Some(sent.is_ok()),
        },
        _ => match sender.send_timeout(value, Duration::from_micros(50)) {
            Err(SendTimeoutError::Timeout(_)) => None,
            sent => Some(sent.is_ok()),
        },
    };
    assert_ne!(sent, Some(false), "the receivers are there");
    sent.is_some()
}

fn send(mut sender: Sender<Value>, share: u64, mut dice: Dice, tally: &Mutex<Tally>) {
    let (mut place, mut passages) = (0, Vec::new());
    for _ in 0..share {
        if dice.one_of(500) && place > 0 {
            let next = sender.downgrade().upgrade().expect("a sender is there");
            let old = mem::replace(&mut sender, next);
            open(tally).sent.insert(old.number(), mem::take(&mut place));
        }
        let value = Value {
            sender: sender.number(),
            place,
            came_back: false,
        };
        let mut began = Instant::now();
        while !try_one_way(&sender, value, &mut dice) {
            began = Instant::now();
        }
        passages.push(Passage::new(value, began));
        place += 1;
    }
    let mut tally = open(tally);
    tally.sent.insert(sender.number(), place);
    tally.passages[0].extend(passages);
}

/// Takes a job, if there is one, as a worker that panics then. Returns whether there was one.
fn panic_over_one(receiver: &Receiver<Value>) -> bool {
    let work = || {
        if let Ok(mut job) = receiver.try_recv_job() {
            job.came_back = true;
            resume_unwind(Box::new("a worker"));
        }
    };
    catch_unwind(AssertUnwindSafe(work)).is_err()
}

/// Receives a value in one of several ways. It is `None` if there was none in time.
fn receive_one(receiver: &Receiver<Value>, dice: &mut Dice) -> Option<Result<Value, RecvError>> {
    // (with bound 0 a value may be left for a future that is dropped, and then it comes after later ones)
    let may_drop = receiver.capacity() != Some(0);
    let micros = match dice.under(20) {
        0 if may_drop => return poll_and_drop(receiver.recv_async()),
        1 => return Some(run(receiver.recv_async())),
        2..=8 => 20,
        _ => 60_000_000,
    };
    match receiver.recv_timeout(Duration::from_micros(micros)) {
        Ok(value) => Some(Ok(value)),
        Err(RecvTimeoutError::Disconnected) => Some(Err(RecvError)),
        Err(RecvTimeoutError::Timeout) => {
            assert_eq!(micros, 20, "a value, or the end, came in a minute");
            None
        }
    }
}

fn receive(mut receiver: Receiver<Value>, mut dice: Dice, tally: &Mutex<Tally>) {
    let (mut count, mut given_back, mut passages) = (0, 0, Vec::new());
    loop {
        if dice.one_of(500) && count > 0 {
            let next = receiver.clone();
            let old = mem::replace(&mut receiver, next);
            let count = mem::take(&mut count);
            open(tally).taken.insert(old.number(), count);
        }
        if dice.one_of(1000) && panic_over_one(&receiver) {
            (count, given_back) = (count + 1, given_back + 1);
        }
        let began = Instant::now();
        match receive_one(&receiver, &mut dice) {
            None => {}
            Some(Ok(value)) => {
                count += 1;
                passages.push(Passage::new(value, began));
            }
            Some(Err(RecvError)) => break,
        }
    }
    let mut tally = open(tally);
    if count > 0 {
        tally.taken.insert(receiver.number(), count);
    }
    tally.given_back += given_back;
    tally.passages[1].extend(passages);
}

/// Checks that each value comes once. If its send began after that of another had ended, its receive may not end before the
/// other one begins.
fn check_passages([mut sends, mut receives]: [Vec<Passage>; 2]) {
    sends.sort_unstable();
    receives.sort_unstable();
    let values = |of: &[Passage]| of.iter().map(|it| it.value).collect::<Vec<_>>();
    assert!(values(&sends) == values(&receives), "each value comes once");
    let both = sends.into_iter().zip(receives);
    let mut begun: Vec<_> = both.filter(|(_, it)| !it.came_back).collect();
    let mut ended = begun.clone();
    begun.sort_unstable_by_key(|(send, _)| send.began);
    ended.sort_unstable_by_key(|(send, _)| send.ended);
    let mut ended = ended.into_iter().peekable();
    let mut latest = None;
    for (send, receive) in begun {
        while let Some((_, earlier)) = ended.next_if(|(it, _)| it.ended < send.began) {
            latest = max(latest, Some(earlier.began));
        }
        assert!(latest.is_none_or(|it| it <= receive.ended), "one order");
    }
}

/// One channel, from its making to its end. Returns how many values went through.
fn round(number: u64, share: u64) -> u64 {
    let bounds = [None, Some(10), None, Some(0), None, Some(1), None];
    let bound = bounds[usize::try_from(number % 7).unwrap_or(0)];
    // (with little room, the channel is slow)
    let share = if bound.is_some() { share / 50 } else { share };
    let mut builder = Builder::new();
    if let Some(bound) = bound {
        builder = builder.bound(bound);
    }
    // (without an audit, each end sends or receives for itself)
    let (sender, receiver, audit) = if number % 2 == 0 {
        let (sender, receiver) = builder.build();
        (sender, receiver, None)
    } else {
        let (sender, receiver, audit) = builder.audited();
        (sender, receiver, Some(audit))
    };
    let tally = Mutex::default();
    thread::scope(|scope| {
        let start = |thread: u64| {
            let (sender, receiver, tally) = (sender.clone(), receiver.clone(), &tally);
            let dice = move |side| Dice(number * 1000 + thread * 10 + side);
            scope.spawn(move || receive(receiver, dice(2), tally));
            scope.spawn(move || send(sender, share, dice(1), tally))
        };
        let senders: Vec<_> = (1..=THREADS).map(start).collect();
        drop(receiver);
        if number % 3 == 0 {
            for thread in senders {
                thread.join().expect("no thread failed");
            }
            sender.close();
        }
        drop(sender);
    });
    let mut tally = tally.into_inner().expect("no thread failed");
    check_passages(mem::take(&mut tally.passages));
    if let Some(totals) = audit.map(|it| it.totals()) {
        assert_eq!((totals.sent, totals.taken), (tally.sent, tally.taken));
        assert_eq!(
            (totals.given_back, totals.left, totals.unknown),
            (tally.given_back, 0, 0)
        );
    }
    THREADS * share
}

/// Makes rounds, several at a time, since many of their threads sleep. Each thousand rounds it prints how far it is.
fn ends(seconds: u64, share: u64) -> String {
    let (began, first) = (Instant::now(), u64::from(std::process::id()));
    let (rounds, count) = (AtomicU64::new(0), AtomicU64::new(0));
    let work = || {
        while began.elapsed().as_secs() < seconds {
            let number = rounds.fetch_add(1, Relaxed);
            let more = round(first + number, share);
            let count = more + count.fetch_add(more, Relaxed);
            if number % 1000 == 999 {
                println!("{count} values in {} s", began.elapsed().as_secs());
            }
        }
    };
    thread::scope(|scope| (0..AT_A_TIME).for_each(|_| drop(scope.spawn(work))));
    let [rounds, count] = [rounds, count].map(AtomicU64::into_inner);
    format!(
        "{count} values in {rounds} channels: each came once, all in one order, and each audit agrees"
    )
}

/// The number at this place, from 0 on, of a file of the kernel.
fn number_of(path: &str, place: usize) -> u64 {
    let text = fs::read_to_string(path).unwrap_or_default();
    let word = text.split_whitespace().nth(place).unwrap_or("0");
    word.parse().unwrap_or(0)
}

fn idle(seconds: u64) -> String {
    let (sender, receiver) = unbounded::<u64>();
    let sleepers: Vec<_> = (0..64)
        .map(|_| receiver.clone())
        .map(|it| thread::spawn(move || it.recv()))
        .collect();
    thread::sleep(Duration::from_secs(1));
    // (for how many nanoseconds all threads but this one ran)
    let own = std::process::id().to_string();
    let ran = || -> u64 {
        let tasks = fs::read_dir("/proc/self/task").expect("Linux").flatten();
        tasks
            .filter(|it| *it.file_name() != *own)
            .map(|it| number_of(&format!("{}/schedstat", it.path().display()), 0))
            .sum()
    };
    let before = ran();
    thread::sleep(Duration::from_secs(seconds));
    let took = ran() - before;
    drop(sender);
    for sleeper in sleepers {
        assert_eq!(sleeper.join().ok(), Some(Err(RecvError)));
    }
    assert!(took < 1_000_000, "64 sleepers took {took} ns");
    format!("64 sleepers took {} us in {seconds} s", took / 1000)
}

/// Sends and receives copies of this value for so many seconds. Returns how many, and by how many bytes memory grew.
fn flow<T: Copy>(sender: &Sender<T>, receiver: &Receiver<T>, value: T, seconds: u64) -> (u64, u64) {
    let resident = || number_of("/proc/self/statm", 1) * 4096;
    let exchange = |count: u64| {
        for _ in 0..count / 10 {
            (0..10).for_each(|_| sender.send(value).expect("a receiver is there"));
            assert!((0..10).all(|_| receiver.recv().is_ok()));
        }
    };
    exchange(100_000);
    let (before, began, mut count) = (resident(), Instant::now(), 0);
    while began.elapsed().as_secs() < seconds || count < 1_000_000 {
        exchange(100_000);
        count += 100_000;
    }
    (count, resident().saturating_sub(before))
}

fn memory(seconds: u64) -> String {
    let said = [false, true].map(|is_audited| {
        let (sender, receiver, _audit) = Builder::new().audited();
        let ends = if is_audited {
            (sender, receiver)
        } else {
            unbounded()
        };
        // These two have used a segment, and do nothing more.
        let (idle_sender, idle_receiver) = ends.clone();
        for sender in [&idle_sender, &ends.0] {
            sender.send(1_u64).expect("a receiver is there");
            idle_receiver.recv().expect("it was sent");
        }
        let (count, grown) = flow(&ends.0, &ends.1, 1, seconds);
        assert!(grown < 1 << 20, "memory grew by {grown} bytes");
        format!("{count} values, audited: {is_audited}, memory grew by {grown} bytes")
    });
    said.join("\n")
}

/// Sends until there is no memory. Then receives all that was sent.
fn full() -> String {
    let (sender, receiver) = unbounded();
    // (so the receiver has its memory before there is no more)
    sender.send(0_u64).expect("a receiver is there");
    receiver.recv().expect("it was sent");
    let refused = (1..).find_map(|it| sender.send(it).err());
    let SendError(count) = refused.expect("memory ends");
    drop(sender);
    assert!(
        receiver.iter().eq(1..count),
        "each value that was sent comes"
    );
    format!(
        "{} values were sent until memory ended, and each came",
        count - 1
    )
}

fn main() {
    let words: Vec<_> = env::args().skip(1).collect();
    let number = |place: usize| words.get(place).and_then(|it| it.parse().ok());
    let seconds = number(1).unwrap_or(1);
    let said = match words.first().map(String::as_str) {
        Some("idle") => idle(seconds),
        Some("memory") => memory(seconds),
        Some("full") => full(),
        // (the second number says how many values each thread sends in a round)
        _ => ends(seconds, number(2).unwrap_or(50_000)),
    };
    println!("{said}");
}
