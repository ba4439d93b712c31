//! Tests of the channel.
mod run;

use hazbultra::channel::{RecvError, RecvTimeoutError, SendError, TryRecvError, TrySendError};
use hazbultra::channel::{Sender, bounded, unbounded};
use run::{Flag, poll, run};
use std::collections::BTreeMap;
use std::sync::atomic::{AtomicUsize, Ordering::SeqCst};
use std::sync::{Arc, Barrier};
use std::task::Wake;
use std::thread;
use std::time::{Duration, Instant};

const SHORT: Duration = Duration::from_millis(20);
/// A test that waits for something fails after this time.
const LONG: Duration = Duration::from_secs(10);

/// A value that counts its drops.
#[derive(Clone)]
struct Counted(Arc<AtomicUsize>);

impl Drop for Counted {
    fn drop(&mut self) {
        self.0.fetch_add(1, SeqCst);
    }
}

#[test]
fn values_of_a_sender_keep_their_order() {
    let (sender, receiver) = unbounded();
    (0..5000).for_each(|it| sender.send(it).unwrap());
    assert_eq!(receiver.len(), 5000);
    drop(sender);
    assert!(receiver.into_iter().eq(0..5000));
}

#[test]
fn the_values_of_many_senders_have_one_order() {
    let (sender, receiver) = unbounded();
    let senders = [(); 20].map(|()| sender.clone());
    (0..5000).for_each(|it| senders[it * 7 % 20].send(it).unwrap());
    assert!(receiver.try_iter().eq(0..5000));
}

#[test]
fn a_clone_of_a_receiver_begins_where_values_are_left() {
    let (sender, receiver) = unbounded();
    (0..3000).for_each(|it| sender.send(it).unwrap());
    assert_eq!(receiver.try_iter().take(2000).count(), 2000);
    assert!(receiver.clone().try_iter().eq(2000..3000));
}

/// An end far behind the others comes to them in more than one call of the archive.
#[test]
fn ends_that_are_far_behind_come_nearer() {
    const ALL: usize = 64 + 4 * 1024; // (they fill the last segment)
    let (sender, receiver) = unbounded();
    let (late, later) = (sender.clone(), receiver.clone());
    (0..20).for_each(|it| late.send(it).unwrap()); // (so it has a place of its own there)
    (20..ALL).for_each(|it| sender.send(it).unwrap());
    late.send(ALL).unwrap();
    assert!(receiver.try_iter().take(2000).eq(0..2000));
    assert!(later.try_iter().eq(2000..=ALL));
}

#[test]
fn each_value_goes_to_one_of_many_ends() {
    let (sender, receiver) = unbounded();
    let takers: Vec<_> = (0..70)
        .map(|_| receiver.clone())
        .map(|it| thread::spawn(move || it.iter().collect::<Vec<(usize, usize)>>()))
        .collect();
    let senders: Vec<_> = (0..20).map(|it| (it, sender.clone())).collect();
    drop((sender, receiver));
    thread::scope(|scope| {
        for (number, sender) in senders {
            scope.spawn(move || (0..500).for_each(|it| sender.send((number, it)).unwrap()));
        }
    });
    let mut all = Vec::new();
    for taker in takers {
        let taken = taker.join().unwrap();
        let mut last = BTreeMap::new();
        for (sender, it) in &taken {
            assert!(
                last.insert(*sender, *it) < Some(*it),
                "the order of each sender"
            );
        }
        all.extend(taken);
    }
    all.sort_unstable();
    assert!(
        all.into_iter()
            .eq((0..20).flat_map(|s| (0..500).map(move |it| (s, it))))
    );
}

/// A receiver that looks after a send finds a value, also if other threads send and receive meanwhile.
#[test]
fn a_receiver_finds_what_was_sent_before() {
    let (sender, receiver) = unbounded();
    let threads: [_; 4] =
        std::array::from_fn(|_| ([(); 4].map(|()| sender.clone()), receiver.clone()));
    thread::scope(|scope| {
        for (senders, receiver) in threads {
            scope.spawn(move || {
                for it in 0..200_000 {
                    senders[it % 4].send(it).unwrap();
                    receiver.try_recv().unwrap();
                }
            });
        }
    });
}

#[test]
fn a_bound_holds() {
    let (sender, receiver) = bounded(2);
    assert_eq!((sender.capacity(), receiver.is_empty()), (Some(2), true));
    sender.send(1).unwrap();
    sender.try_send(2).unwrap();
    assert!(sender.is_full());
    assert_eq!(sender.try_send(3), Err(TrySendError::Full(3)));
    assert!(sender.send_timeout(4, SHORT).unwrap_err().is_timeout());
    assert_eq!(receiver.recv(), Ok(1));
    let sent = thread::spawn(move || [5, 6].map(|it| sender.send(it).is_ok()));
    assert!(receiver.iter().eq([2, 5, 6]));
    assert_eq!(sent.join().unwrap(), [true; 2]);
}

#[test]
fn an_end_ends_the_other_side() {
    let (sender, receiver) = unbounded::<u8>();
    assert_eq!(receiver.try_recv(), Err(TryRecvError::Empty));
    assert_eq!(receiver.recv_timeout(SHORT), Err(RecvTimeoutError::Timeout));
    assert_eq!(
        receiver.recv_deadline(Instant::now()),
        Err(RecvTimeoutError::Timeout)
    );
    sender.send(1).unwrap();
    drop(sender);
    assert_eq!(receiver.recv(), Ok(1));
    assert_eq!(receiver.recv(), Err(RecvError));
    assert_eq!(receiver.try_recv(), Err(TryRecvError::Disconnected));

    let (sender, receiver) = unbounded();
    drop(receiver.clone());
    drop(receiver);
    assert_eq!(sender.send(7), Err(SendError(7)));
    assert_eq!(sender.try_send(8), Err(TrySendError::Disconnected(8)));
    assert_eq!(sender.clone().send(9), Err(SendError(9)));
    assert!(sender.is_empty());
}

#[test]
fn the_end_wakes_sleepers() {
    let (sender, receiver) = unbounded::<u8>();
    let sleeper = thread::spawn(move || receiver.recv());
    thread::sleep(SHORT * 5);
    drop(sender);
    assert_eq!(sleeper.join().unwrap(), Err(RecvError));

    let (sender, receiver) = bounded(1);
    sender.send(1).unwrap();
    let sleeper = thread::spawn(move || sender.send(2));
    thread::sleep(SHORT * 5);
    drop(receiver);
    assert_eq!(sleeper.join().unwrap(), Err(SendError(2)));
}

#[test]
fn what_is_left_is_dropped_once_with_the_last_receiver() {
    let drops = Arc::new(AtomicUsize::new(0));
    let (sender, receiver) = unbounded();
    (0..20).for_each(|_| sender.send(Counted(Arc::clone(&drops))).unwrap());
    drop((receiver.recv().unwrap(), receiver.clone()));
    assert_eq!(drops.load(SeqCst), 1);
    drop(receiver);
    assert_eq!(drops.load(SeqCst), 20);
    drop(sender);
    assert_eq!(drops.load(SeqCst), 20);

    let (sender, first) = unbounded();
    let second = first.clone();
    (0..5).for_each(|_| sender.send(Counted(Arc::clone(&drops))).unwrap());
    drop((second.recv(), first.recv()));
    drop((first, second));
    assert_eq!(drops.load(SeqCst), 25);
}

#[test]
fn values_may_hold_ends_of_their_own_channel() {
    struct Knot(
        #[allow(dead_code)] Sender<Knot>,
        #[allow(dead_code)] Counted,
    );
    let drops = Arc::new(AtomicUsize::new(0));
    let (sender, receiver) = unbounded();
    for _ in 0..10 {
        let knot = Knot(sender.clone(), Counted(Arc::clone(&drops)));
        assert!(sender.send(knot).is_ok());
    }
    drop(receiver.recv());
    drop((sender, receiver));
    assert_eq!(drops.load(SeqCst), 10);
}

#[test]
fn ten_million_values_that_wait_are_dropped() {
    let (sender, receiver) = unbounded();
    (0..10_000_000_u32).for_each(|it| sender.send(it).unwrap());
    drop(receiver);
    assert_eq!(sender.send(1), Err(SendError(1)));
}

#[test]
fn tasks_send_and_receive() {
    let (sender, receiver) = bounded(2);
    let sending = thread::spawn(move || {
        (0..1000).for_each(|it| run(sender.send_async(it)).unwrap());
    });
    let taken: Vec<_> = (0..1000)
        .map(|_| run(receiver.recv_async()).unwrap())
        .collect();
    assert!(taken.into_iter().eq(0..1000));
    sending.join().unwrap();
    assert_eq!(run(receiver.recv_async()), Err(RecvError));
}

#[test]
fn a_future_that_is_dropped_passes_its_wake_up_on() {
    let (sender, receiver) = unbounded();
    let other = receiver.clone();
    let mut first = receiver.recv_async();
    assert!(poll(&mut first, &Arc::<Flag>::default()).is_pending());
    let sleeper = thread::spawn(move || other.recv_timeout(LONG));
    thread::sleep(SHORT * 5);
    sender.send(1).unwrap(); // (it wakes the first future, whose drop wakes the sleeper)
    drop(first);
    assert_eq!(sleeper.join().unwrap(), Ok(1));
}

#[test]
fn a_future_that_is_dropped_leaves_the_list() {
    let (sender, receiver) = unbounded();
    let mut first = receiver.recv_async();
    assert!(poll(&mut first, &Arc::<Flag>::default()).is_pending());
    drop(first);
    let sleeper = thread::spawn(move || receiver.recv_timeout(LONG));
    thread::sleep(SHORT * 5);
    sender.send(1).unwrap();
    assert_eq!(sleeper.join().unwrap(), Ok(1));
}

#[test]
fn a_waker_that_panics_is_passed_over() {
    struct Panicking;
    impl Wake for Panicking {
        fn wake(self: Arc<Self>) {
            std::panic::resume_unwind(Box::new("a waker"));
        }
    }
    let (sender, receiver) = unbounded();
    let mut first = receiver.recv_async();
    assert!(poll(&mut first, &Arc::new(Panicking)).is_pending());
    let other = receiver.clone();
    let sleeper = thread::spawn(move || other.recv_timeout(LONG));
    thread::sleep(SHORT * 5);
    assert_eq!(sender.send(1), Ok(()));
    assert_eq!(sleeper.join().unwrap(), Ok(1));
}

#[test]
fn a_send_that_is_dropped_sends_nothing() {
    let (sender, receiver) = bounded(1);
    sender.send(1).unwrap();
    let mut future = sender.send_async(2);
    assert!(poll(&mut future, &Arc::<Flag>::default()).is_pending());
    drop(future);
    drop(sender);
    assert!(receiver.iter().eq([1]));
}

/// Sends a few values at a time, while the channel never ends: so nothing else wakes a receiver whose wake-up is lost.
#[test]
fn no_round_sleeps_for_ever() {
    let (sender, receiver) = unbounded();
    let (back, rounds) = unbounded();
    for _ in 0..3 {
        let (receiver, back) = (receiver.clone(), back.clone());
        thread::spawn(move || receiver.iter().for_each(|it| back.send(it).unwrap()));
    }
    let quick = receiver.clone();
    for round in 0..5_000_u32 {
        if round % 100 == 0 {
            thread::sleep(Duration::from_millis(1)); // (so that all receivers sleep)
        }
        (0..=round % 3).for_each(|it| sender.send(it).unwrap());
        let own = u32::from(quick.recv_timeout(Duration::from_nanos(1)).is_ok());
        for _ in own..=round % 3 {
            rounds.recv_timeout(LONG).unwrap();
        }
    }
}

#[test]
fn no_sender_that_waits_for_room_sleeps_for_ever() {
    let (sender, receiver) = bounded(1);
    for number in 0..4_u32 {
        let sender = sender.clone();
        thread::spawn(move || while sender.send(number).is_ok() {});
    }
    for round in 0..5_000 {
        if round % 500 == 0 {
            thread::sleep(SHORT); // (so that all senders sleep)
        }
        receiver.recv_timeout(LONG).unwrap();
    }
}

#[test]
fn one_sender_is_shared_by_threads() {
    let (sender, receiver) = unbounded();
    let barrier = Barrier::new(4);
    let taken: usize = thread::scope(|scope| {
        for _ in 0..4 {
            scope.spawn(|| {
                barrier.wait();
                (0..1000).for_each(|it| sender.send(it).unwrap());
            });
        }
        let takers =
            [(); 4].map(|()| scope.spawn(|| (0..1000).flat_map(|_| receiver.recv()).count()));
        takers.map(|it| it.join().unwrap()).iter().sum()
    });
    assert_eq!((taken, receiver.len()), (4000, 0));
}

#[test]
fn ends_of_one_channel() {
    let ((sender, receiver), (other, others)) = (unbounded::<u8>(), unbounded());
    assert!(sender.same_channel(&sender.clone()) && receiver.same_channel(&receiver.clone()));
    assert!(!sender.same_channel(&other) && !receiver.same_channel(&others));
}
