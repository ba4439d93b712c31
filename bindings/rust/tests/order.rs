//! Tests of the order of values, and of the shares of receivers.
use hazbultra::channel::{Builder, unbounded};
use std::env;
use std::sync::atomic::{AtomicU64, Ordering::SeqCst};
use std::thread;
use std::time::Duration;

/// Setups without a bound and with one.
fn setups() -> [Builder; 2] {
    [Builder::new(), Builder::new().bound(4)]
}

#[test]
fn two_senders_of_one_thread_keep_the_order_of_their_sends() {
    for setup in setups() {
        // (it has room for a pair, and then for all)
        for pairs in [1, 1000] {
            let (a, receiver) = setup.bound(2 * pairs).build();
            let (b, _idle) = (a.clone(), receiver.clone());
            for round in 0..1000 / pairs {
                for _ in 0..pairs {
                    b.send((round, 'b')).unwrap();
                    a.send((round, 'a')).unwrap();
                }
                let pair = [(round, 'b'), (round, 'a')];
                assert!(
                    receiver
                        .try_iter()
                        .eq(pair.into_iter().cycle().take(2 * pairs))
                );
            }
        }
    }
}

#[test]
fn new_senders_come_after_old_ones() {
    for setup in setups() {
        let (first, receiver) = setup.bound(100).build();
        for it in 0..100 {
            first.clone().send(it).unwrap();
        }
        assert!(receiver.try_iter().eq(0..100));
    }
}

/// A producer is joined, and then each worker gets a pill: nothing that was sent before comes after it. `ROUNDS=20000` does
/// it so often.
#[test]
fn pills_come_last() {
    let rounds = env::var("ROUNDS").map_or(2_000, |it| it.parse().expect("ROUNDS is a number"));
    for round in 0..rounds {
        let (sender, receiver) = setups()[round % 2].build();
        let workers = [receiver.clone(), receiver];
        let workers = workers.map(|it| thread::spawn(move || it.iter().map_while(|it| it).count()));
        let producer = sender.clone();
        let produce = move || (0..20).for_each(|it| producer.send(Some(it)).unwrap());
        thread::spawn(produce).join().unwrap();
        for _ in &workers {
            sender.send(None).unwrap();
        }
        assert_eq!(
            workers.map(|it| it.join().unwrap()).iter().sum::<usize>(),
            20
        );
    }
}

/// A chain of threads, each of which sends after the one before it has sent. The last one takes all.
#[test]
fn a_value_sent_after_a_message_comes_after_what_the_other_sent() {
    for setup in setups() {
        let (sender, receiver) = setup.bound(64).build();
        let [there, back] = [(); 2].map(|()| unbounded::<()>());
        let other = sender.clone();
        let taken: Vec<_> = thread::scope(|scope| {
            scope.spawn(|| {
                for it in 0..1_000 {
                    other.send(2 * it).unwrap();
                    there.0.send(()).unwrap();
                    back.1.recv().unwrap();
                }
            });
            scope.spawn(|| {
                for it in 0..1_000 {
                    there.1.recv().unwrap();
                    sender.send(2 * it + 1).unwrap();
                    back.0.send(()).unwrap();
                }
            });
            receiver.iter().take(2_000).collect()
        });
        assert!(taken.into_iter().eq(0..2_000));
    }
}

/// How many values each of some busy receivers got from each of two busy senders.
type Counts = Vec<[AtomicU64; 2]>;

/// Whether neither of two has twice what the other has.
fn is_even([one, two]: [u64; 2]) -> bool {
    one > 0 && one <= 2 * two && two <= 2 * one
}

/// Two busy senders, beside idle clones of all ends. In the long run none has twice the share of the other, and so with two
/// receivers. (If there are few processors, that depends on the system, too. So this takes up to 10 s.)
#[test]
fn shares_are_within_two_to_one() {
    for count in [1, 2] {
        let (sender, receiver) = Builder::new().bound(1000).build();
        let _idle = (sender.clone(), receiver.clone());
        let counts: Counts = (0..count).map(|_| Default::default()).collect();
        let sum = |of: &dyn Fn(&[AtomicU64; 2]) -> u64| counts.iter().map(of).sum();
        thread::scope(|scope| {
            for number in [0, 1] {
                let sender = sender.clone();
                scope.spawn(move || while sender.send(number).is_ok() {});
            }
            for counts in &counts {
                let take = |from: usize| {
                    counts[from].fetch_add(1, SeqCst);
                };
                let receiver = receiver.clone();
                scope.spawn(move || receiver.into_iter().for_each(take));
            }
            let is_fair = |_| {
                thread::sleep(Duration::from_millis(500));
                let senders = [0, 1].map(|it| sum(&|from| from[it].load(SeqCst)));
                let shares = counts
                    .iter()
                    .map(|it| it[0].load(SeqCst) + it[1].load(SeqCst));
                let shares: Vec<_> = shares.collect();
                is_even(senders) && is_even([shares[0], shares[count - 1]])
            };
            let is_fair = (0..20).any(is_fair);
            sender.close();
            assert!(is_fair, "{counts:?}");
        });
    }
}
