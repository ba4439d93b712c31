//! Tests of what keeps the values between sends and receives: their room, their counts, and who had them.
use hazbultra::channel::{Builder, Receiver, TryRecvError, bounded, unbounded};
use std::sync::{Arc, Barrier};
use std::thread;
use std::time::Duration;

/// So many values give a sender a place of its own.
const SOME: u64 = 20;

/// A value that does not fit into a word.
fn large(number: u64) -> [u64; 3] {
    [number; 3]
}

#[test]
fn larger_values_come_in_their_order_after_bursts() {
    let (sender, receiver) = unbounded();
    let (mut sending, mut taking) = (0.., 0..);
    // (so many are sent, and then so many are taken)
    let bursts = [(64, 63), (64, 64), (100, 1), (1, 101)];
    for (sent, taken) in bursts.into_iter().cycle().take(40) {
        let values = sending.by_ref().take(sent);
        values.for_each(|it| sender.send(large(it)).unwrap());
        let values = taking.by_ref().take(taken);
        values.for_each(|it| assert_eq!(receiver.recv(), Ok(large(it))));
    }
}

#[test]
fn larger_values_outlive_their_senders() {
    let (sender, receiver) = unbounded();
    for first in 0..100 {
        let sender = sender.clone();
        (0..SOME).for_each(|it| sender.send(large(first * SOME + it)).unwrap());
    }
    assert!(receiver.try_iter().eq((0..100 * SOME).map(large)));
}

/// The bytes of memory that this process uses.
fn resident() -> u64 {
    let pages = std::fs::read_to_string("/proc/self/statm").unwrap();
    pages.split(' ').nth(1).unwrap().parse::<u64>().unwrap() * 4096
}

/// Does the work so often. After that the process uses at most 20 MB more than after a tenth of it.
fn keeps_no_memory(times: usize, mut work: impl FnMut()) {
    (0..times / 10).for_each(|_| work());
    let before = resident();
    (0..times).for_each(|_| work());
    let more = resident().saturating_sub(before);
    assert!(more < 20_000_000, "{more} bytes more");
}

#[test]
fn what_is_gone_keeps_no_memory() {
    let page = [7_u64; 60];
    let (sender, receiver) = unbounded();
    keeps_no_memory(60_000, || {
        sender.send(page).unwrap();
        assert_eq!(receiver.recv(), Ok(page));
    });
    keeps_no_memory(15_000, || {
        let sender = sender.clone();
        (0..SOME).for_each(|_| sender.send(page).unwrap());
        assert_eq!(receiver.try_iter().count() as u64, SOME);
    });
    keeps_no_memory(100_000, || assert!(receiver.clone().try_recv().is_err()));
}

#[test]
fn what_gone_ends_did_is_counted_and_nothing_else() {
    let (sender, receiver) = unbounded();
    for sender in [sender.clone(), sender.clone()] {
        (0..SOME).for_each(|it| sender.send(it).unwrap());
    }
    assert_eq!(receiver.len() as u64, 2 * SOME);
    assert!(receiver.clone().try_iter().take(2).eq(0..2)); // (the first take makes the seat)
    (1..SOME).for_each(|it| sender.send(it).unwrap());
    assert_eq!(sender.len() as u64, 3 * SOME - 3);
    sender.close();
    assert!(sender.send(5).is_err());
    assert_eq!(sender.len() as u64, 3 * SOME - 3);
}

/// The one sender of a channel has room once a receiver has found nothing, also while another one has taken a value and
/// has not returned. (To move a large value takes time. So it is often between the two.)
#[test]
fn there_is_room_after_a_receiver_found_nothing() {
    let (sender, receiver) = bounded(1);
    let other = receiver.clone();
    thread::scope(move |scope| {
        scope.spawn(move || while other.try_recv() != Err(TryRecvError::Disconnected) {});
        for round in 0..30_000 {
            sender.try_send([7; 500]).expect("nothing waits");
            if round % 100 == 0 {
                thread::sleep(Duration::from_micros(1)); // (so that the other one takes it)
            }
            while receiver.try_recv().is_ok() {}
        }
    });
}

/// A sender that finds no room, and a count at the same time, wait for no lock of each other.
#[test]
fn a_full_channel_is_counted_while_senders_try() {
    let (sender, receiver) = bounded(1);
    for _ in 0..SOME {
        sender.send(1).unwrap();
        assert_eq!(receiver.recv(), Ok(1));
    }
    sender.send(1).unwrap();
    thread::scope(|scope| {
        scope.spawn(|| (0..50_000).for_each(|_| assert!(sender.try_send(2).is_err())));
        (0..50_000).for_each(|_| assert_eq!(receiver.len(), 1));
    });
}

#[test]
fn what_a_job_gives_back_after_a_close_is_the_last() {
    for setup in [Builder::new(), Builder::new().bound(3)] {
        let (sender, receiver) = setup.build();
        (1..=3).for_each(|it| sender.send(it).unwrap());
        let job = receiver.recv_job().unwrap();
        sender.send(4).unwrap(); // (with the bound it is full now)
        sender.close();
        drop(job);
        assert_eq!(receiver.len(), 4);
        assert_eq!(receiver.clone().try_recv(), Ok(2)); // (a first take)
        assert!(receiver.try_iter().eq([3, 4, 1]));
        assert_eq!(receiver.try_recv(), Err(TryRecvError::Disconnected));
    }
}

#[test]
fn a_job_without_receivers_drops_its_value() {
    let (sender, receiver) = unbounded();
    let value = Arc::new(());
    sender.send(Arc::clone(&value)).unwrap();
    let job = receiver.recv_job().unwrap();
    drop(receiver);
    sender.close();
    drop(job);
    assert_eq!((Arc::strong_count(&value), sender.len()), (1, 0));
}

#[test]
fn who_is_told_of_a_close_finds_the_channel_closed() {
    for round in 0..100 {
        let (sender, receiver) = unbounded();
        (0..SOME).for_each(|it| sender.send(it).unwrap());
        let closing = thread::spawn(move || (receiver.close(), receiver));
        let is_told = || match round % 2 {
            0 => sender.send(0).is_err(),
            _ => sender.is_closed(),
        };
        while !is_told() {
            thread::yield_now();
        }
        assert!(sender.is_closed() && sender.send(0).is_err());
        assert!(closing.join().unwrap().0);
    }
}

#[test]
fn accounts_have_what_jobs_gave_back() {
    let (first, receiver, audit) = Builder::new().audited();
    let (second, other) = (first.clone(), receiver.clone());
    let sent = [(&second, 1), (&first, 2), (&second, 3)].map(|(from, it)| from.send(it));
    assert_eq!(sent, [Ok(()); 3]);
    drop(receiver.recv_job().unwrap());
    assert_eq!(receiver.try_recv(), Ok(2));
    let jobs = [(); 2].map(|()| receiver.recv_job().unwrap());
    assert_eq!([*jobs[0], *jobs[1]], [3, 1]);
    receiver.close();
    drop(jobs);
    assert_eq!(other.try_recv(), Ok(3));
    drop((receiver, other));

    let [account] = &audit.accounts()[..] else {
        panic!("few values were taken")
    };
    let fates = account.fates.iter().map(|it| (it.sender, it.receiver));
    let expected = [
        (Some(1), Some(0)),
        (Some(0), Some(0)),
        (Some(1), Some(0)),
        (None, Some(0)),
        (None, Some(1)),
        (None, None),
    ];
    assert_eq!(
        (fates.collect(), &account.left),
        (expected.to_vec(), &vec![1])
    );
    let totals = audit.totals();
    assert_eq!((totals.given_back, totals.left, totals.unknown), (3, 1, 0));
}

#[test]
fn the_last_account_is_made_though_nothing_is_left() {
    let (sender, receiver, audit) = Builder::new().audited();
    sender.send(1).unwrap();
    assert_eq!(receiver.recv(), Ok(1));
    assert!(audit.accounts().is_empty());
    drop(receiver);
    assert_eq!(audit.accounts().len(), 1);
}

/// Two receivers take at once. The account says of each value who of them took it.
#[test]
fn an_account_has_the_order_of_the_values() {
    const COUNT: usize = 30_000;
    let (sender, receiver, audit) = Builder::new().account(COUNT).audited();
    (0..COUNT).for_each(|it| sender.send(it).unwrap());
    let barrier = Arc::new(Barrier::new(2));
    let take = |it: Receiver<usize>| {
        let barrier = Arc::clone(&barrier);
        thread::spawn(move || {
            barrier.wait();
            (it.number(), it.try_iter().collect())
        })
    };
    let takers = [receiver.clone(), receiver].map(take);
    let mut told = vec![None; COUNT];
    for taker in takers {
        let (number, taken): (u64, Vec<usize>) = taker.join().unwrap();
        for it in taken {
            told[it] = Some(number);
        }
    }
    let [account] = &audit.accounts()[..] else {
        panic!("all values go into one account")
    };
    assert!(account.fates.iter().map(|it| it.receiver).eq(told));
}
