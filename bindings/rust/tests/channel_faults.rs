//! Tests of faults that the channel once had. Each failed then.
mod run;

use hazbultra::channel::{Builder, Sender, bounded, unbounded};
use run::{Flag, poll};
use std::future::Future;
use std::mem::ManuallyDrop;
use std::panic::{AssertUnwindSafe, catch_unwind, resume_unwind};
use std::pin::Pin;
use std::process::Command;
use std::sync::atomic::{AtomicUsize, Ordering::SeqCst};
use std::sync::{Arc, Barrier, mpsc};
use std::task::{Context, Poll, RawWaker, RawWakerVTable, Wake, Waker};
use std::thread;
use std::time::{Duration, Instant};

/// A test that waits for something fails after this time.
const LONG: Duration = Duration::from_secs(10);

/// Whether the work ends by a panic.
fn panics(work: impl FnOnce()) -> bool {
    catch_unwind(AssertUnwindSafe(work)).is_err()
}

fn flag() -> Arc<Flag> {
    Arc::default()
}

#[test]
fn a_send_that_is_polled_too_often_takes_no_room() {
    let (sender, receiver) = bounded(1);
    let mut sent = sender.send_async(1);
    assert!(poll(&mut sent, &flag()).is_ready());
    assert_eq!(receiver.recv(), Ok(1));
    assert!(panics(|| assert!(poll(&mut sent, &flag()).is_ready())));
    assert_eq!(sender.try_send(2), Ok(()));
}

#[test]
fn a_receive_that_is_polled_too_often_takes_no_value() {
    let (sender, receiver) = unbounded();
    (1..=2).for_each(|it| sender.send(it).unwrap());
    let mut taken = receiver.recv_async();
    assert!(poll(&mut taken, &flag()).is_ready());
    assert!(panics(|| assert!(poll(&mut taken, &flag()).is_ready())));
    assert_eq!(receiver.recv(), Ok(2));
}

#[test]
fn one_or_two_values_wait_at_each_moment() {
    let (sender, receiver) = unbounded();
    (0..20).for_each(|_| sender.send(0).unwrap()); // (so it has a place of its own)
    assert_eq!(receiver.try_iter().take(19).count(), 19);
    thread::scope(|scope| {
        let looks = [&sender; 2].map(|sender| {
            scope.spawn(move || (0..200_000).all(|_| (1..=2).contains(&sender.len())))
        });
        while !looks.iter().all(thread::ScopedJoinHandle::is_finished) {
            sender.send(0).unwrap();
            receiver.recv().unwrap();
        }
        assert_eq!(looks.map(|it| it.join().unwrap()), [true; 2]);
    });
}

#[test]
fn busy_senders_are_served_alike() {
    let (sender, receiver) = unbounded();
    let (senders, _idle) = ([sender.clone(), sender], receiver.clone());
    let barrier = Barrier::new(2);
    thread::scope(|scope| {
        for (number, sender) in senders.into_iter().enumerate() {
            let barrier = &barrier;
            scope.spawn(move || {
                for _ in 0..100 {
                    barrier.wait(); // (so that neither is ahead by more than a thousand)
                    (0..1000).for_each(|_| sender.send(number).unwrap());
                }
            });
        }
    });
    let ones: usize = receiver.iter().take(100_000).sum();
    assert!((33_334..66_667).contains(&ones), "{ones} of 100,000");
}

/// A waker that sends a 1 when it is dropped, and so does each clone of it.
#[allow(
    unsafe_code,
    reason = "a clone of a waker of safe code does nothing when it is dropped"
)]
fn sends_when_dropped(sender: Sender<u8>) -> Waker {
    fn count(at: *const ()) -> Arc<Sender<u8>> {
        // SAFETY: `raw` made what it is, and each clone counts. A drop or `wake` ends one of them.
        unsafe { Arc::from_raw(at.cast()) }
    }
    static TABLE: RawWakerVTable = RawWakerVTable::new(
        |at| {
            std::mem::forget(Arc::clone(&*ManuallyDrop::new(count(at))));
            RawWaker::new(at, &TABLE)
        },
        |at| drop(count(at)),
        |_| {},
        |at| count(at).send(1).unwrap(),
    );
    let raw = Arc::into_raw(Arc::new(sender)).cast();
    // SAFETY: the table's calls keep the rules of wakers. A sender may be used by all threads.
    unsafe { Waker::from_raw(RawWaker::new(raw, &TABLE)) }
}

#[test]
fn a_waker_may_use_the_channel_when_it_is_dropped() {
    let (done, ended) = mpsc::channel();
    thread::spawn(move || {
        let (sender, receiver) = unbounded();
        let (mut future, mut other) = (receiver.recv_async(), receiver.recv_async());
        assert!(poll(&mut future, &flag()).is_pending());
        assert!(poll(&mut other, &flag()).is_pending());
        sender.send(0).unwrap(); // (so the first one is in the list no more, and takes no waker)
        let waker = sends_when_dropped(sender);
        let polled = Pin::new(&mut future).poll(&mut Context::from_waker(&waker));
        done.send(polled).unwrap();
    });
    assert_eq!(ended.recv_timeout(LONG), Ok(Poll::Ready(Ok(0))));
}

/// A waker that panics. What the panic says panics once more when it is dropped.
struct Panicking;

struct Bomb;

impl Wake for Panicking {
    fn wake(self: Arc<Self>) {
        resume_unwind(Box::new(Bomb));
    }
}

impl Drop for Bomb {
    fn drop(&mut self) {
        resume_unwind(Box::new("a bomb"));
    }
}

#[test]
fn what_the_panic_of_a_waker_says_is_not_dropped() {
    for ends in [false, true] {
        let (sender, receiver) = unbounded();
        let (mut first, mut second, flag) = (receiver.recv_async(), receiver.recv_async(), flag());
        assert!(poll(&mut first, &Arc::new(Panicking)).is_pending());
        assert!(poll(&mut second, &flag).is_pending());
        assert!(!panics(|| if ends {
            drop(sender);
        } else {
            sender.send(1).unwrap();
        }));
        assert!(flag.take(), "the second one is woken");
    }
}

/// A value whose drop counts, and panics.
struct Sharp<'a>(&'a AtomicUsize);

impl Drop for Sharp<'_> {
    fn drop(&mut self) {
        self.0.fetch_add(1, SeqCst);
        resume_unwind(Box::new(Bomb));
    }
}

#[test]
fn all_that_is_left_is_dropped_though_each_drop_panics() {
    for has_audit in [false, true] {
        let drops = AtomicUsize::new(0);
        let (sender, receiver, audit) = Builder::new().account(3).audited();
        let plain = unbounded();
        let (sender, receiver) = if has_audit { (sender, receiver) } else { plain };
        drop(audit);
        (0..8).for_each(|_| assert!(sender.send(Sharp(&drops)).is_ok()));
        let dropped = catch_unwind(AssertUnwindSafe(|| drop(receiver)));
        std::mem::forget(dropped.expect_err("it goes on with a panic"));
        assert_eq!(drops.load(SeqCst), 8);
    }
}

/// The time of a hundred thousand calls on futures of which so many wait.
fn time_of_calls(waiting: usize) -> Duration {
    let (_sender, receiver) = unbounded::<u8>();
    let flag = flag();
    let wait = || {
        let mut future = receiver.recv_async();
        assert!(poll(&mut future, &flag).is_pending());
        future
    };
    let mut futures: Vec<_> = (0..waiting).map(|_| wait()).collect();
    let began = Instant::now();
    for call in 0..50_000 {
        let at = (call * 7 + waiting / 2) % waiting;
        assert!(poll(&mut futures[at], &flag).is_pending());
        futures[at] = wait(); // (so the old one leaves)
    }
    began.elapsed()
}

#[test]
fn many_may_wait() {
    // (other work on the machine may hold some of these up)
    let is_fast = || time_of_calls(40_000) < time_of_calls(400) * 8;
    assert!((0..5).any(|_| is_fast()));
}

/// Runs a test of this file, which is ignored else, in a process of its own with little memory.
fn run_with_little_memory(name: &str) {
    let own = std::env::current_exe().unwrap();
    let limited = r#"ulimit -v 1000000; exec "$0" --exact --ignored "$1""#;
    let mut shell = Command::new("sh");
    let ran = shell.args(["-c", limited]).arg(own).arg(name);
    let output = ran.output().unwrap();
    let said = String::from_utf8_lossy(&output.stdout);
    assert!(said.contains("1 passed"), "{said}");
}

/// Takes memory until no block of 8 KiB is free. No page of it is touched.
fn take_memory() -> Vec<Vec<u8>> {
    let block = |size| {
        let mut block = Vec::new();
        block.try_reserve_exact(size).ok().map(|()| block)
    };
    let mut all = Vec::with_capacity(1 << 20);
    for size in [4 << 20, 8 << 10] {
        all.extend(std::iter::from_fn(|| block(size)).take(1 << 19));
    }
    assert!(all.len() < 1 << 19, "this process has a limit");
    all
}

#[test]
fn a_job_without_memory_ends() {
    run_with_little_memory("without_memory_a_job_ends");
}

#[test]
#[ignore = "the test above runs it with little memory"]
fn without_memory_a_job_ends() {
    static DROPS: AtomicUsize = AtomicUsize::new(0);
    let (sender, receiver) = unbounded();
    // (so many fill the first segment, and the next one takes 24 KiB)
    (0..64).for_each(|_| assert!(sender.send(Some(Sharp(&DROPS))).is_ok()));
    let job = receiver.recv_job().unwrap();
    receiver.try_iter().for_each(std::mem::forget);
    drop(sender);
    let memory = take_memory();
    let dropped = catch_unwind(AssertUnwindSafe(|| drop(job)));
    drop(memory);
    std::mem::forget(dropped.expect_err("it is dropped, and panics"));
    assert_eq!(DROPS.load(SeqCst), 1);
    assert!(receiver.try_recv().err().unwrap().is_disconnected());
}
