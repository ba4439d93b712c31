//! Tests of the channel of bound 0, in which each value goes from hand to hand.
mod run;

use hazbultra::channel::{Builder, bounded};
use hazbultra::channel::{RecvError, SendError, SendTimeoutError, TryRecvError, TrySendError};
use run::{Flag, poll};
use std::collections::BTreeMap;
use std::sync::Arc;
use std::sync::atomic::{AtomicBool, Ordering::SeqCst};
use std::task::Poll;
use std::thread;
use std::time::{Duration, Instant};

const SHORT: Duration = Duration::from_millis(20);
/// A test that waits for something fails after this time.
const LONG: Duration = Duration::from_secs(10);

#[test]
fn nothing_is_sent_or_received_alone() {
    let (sender, receiver) = bounded(0);
    assert_eq!((sender.capacity(), sender.len()), (Some(0), 0));
    assert!(sender.is_full() && sender.is_empty());
    assert_eq!(sender.try_send(1), Err(TrySendError::Full(1)));
    let refused = sender.send_timeout(2, SHORT);
    assert_eq!(refused, Err(SendTimeoutError::Timeout(2)));
    assert!(sender.send_deadline(3, Instant::now()).is_err());
    assert_eq!(receiver.try_recv(), Err(TryRecvError::Empty));
    assert!(receiver.recv_timeout(SHORT).unwrap_err().is_timeout());
    assert_eq!(sender.try_send(4), Err(TrySendError::Full(4)));
}

#[test]
fn a_send_returns_when_a_receiver_has_the_value() {
    let (sender, receiver) = bounded(0);
    let is_sent = AtomicBool::new(false);
    thread::scope(|scope| {
        scope.spawn(|| {
            sender.send(1).unwrap();
            is_sent.store(true, SeqCst);
        });
        thread::sleep(SHORT * 5);
        assert!(!is_sent.load(SeqCst));
        assert_eq!(receiver.try_recv(), Ok(1));
    });
}

#[test]
fn a_try_succeeds_if_a_receiver_waits() {
    let (sender, receiver) = bounded(0);
    let taker = thread::spawn(move || (receiver.recv_timeout(LONG), receiver.try_recv()));
    let until = Instant::now() + LONG;
    while let Err(refused) = sender.try_send(1) {
        assert!(refused.is_full() && Instant::now() < until);
        thread::yield_now();
    }
    assert_eq!(taker.join().unwrap(), (Ok(1), Err(TryRecvError::Empty)));
}

#[test]
fn tasks_meet() {
    let (sender, receiver) = bounded(0);
    let flags = [(); 3].map(|()| Arc::<Flag>::default());
    let (mut first, mut second) = (sender.send_async(1), sender.send_async(2));
    assert!(poll(&mut first, &flags[0]).is_pending());
    assert!(poll(&mut second, &flags[1]).is_pending());
    assert!(poll(&mut first, &flags[0]).is_pending());
    assert_eq!(receiver.try_recv(), Ok(1), "the first offer");
    assert!(flags[0].take() && !flags[1].take());
    assert_eq!(poll(&mut first, &flags[0]), Poll::Ready(Ok(())));
    drop(second); // (it takes its value back)
    assert_eq!(receiver.try_recv(), Err(TryRecvError::Empty));

    let mut result = receiver.recv_async();
    assert!(poll(&mut result, &flags[2]).is_pending());
    assert_eq!(sender.try_send(3), Ok(()));
    assert_eq!(sender.try_send(4), Err(TrySendError::Full(4)));
    assert!(flags[2].take());
    assert_eq!(poll(&mut result, &flags[2]), Poll::Ready(Ok(3)));
}

#[test]
fn what_is_left_for_a_receiver_is_for_no_other() {
    let (sender, receiver) = bounded(0);
    let flags = [(); 2].map(|()| Arc::<Flag>::default());
    let (mut first, mut second) = (receiver.recv_async(), receiver.recv_async());
    assert!(poll(&mut first, &flags[0]).is_pending());
    sender.send(1).unwrap();
    drop(sender);
    assert_eq!(
        (receiver.len(), receiver.try_recv()),
        (0, Err(TryRecvError::Empty))
    );
    assert!(
        poll(&mut second, &flags[1]).is_pending(),
        "it is not the end"
    );
    assert!(flags[0].take() && !flags[1].take());
    assert_eq!(poll(&mut first, &flags[0]), Poll::Ready(Ok(1)));
    assert!(flags[1].take());
    assert_eq!(poll(&mut second, &flags[1]), Poll::Ready(Err(RecvError)));
}

#[test]
fn what_was_left_for_a_future_that_is_dropped_goes_to_the_next_receiver() {
    let (sender, receiver) = bounded(0);
    let flags = [(); 2].map(|()| Arc::<Flag>::default());
    let (mut first, mut second) = (receiver.recv_async(), receiver.recv_async());
    assert!(poll(&mut first, &flags[0]).is_pending());
    assert!(poll(&mut second, &flags[1]).is_pending());
    sender.send(1).unwrap();
    drop(first);
    assert!(flags[1].take());
    assert_eq!(poll(&mut second, &flags[1]), Poll::Ready(Ok(1)));
    assert_eq!(sender.try_send(2), Err(TrySendError::Full(2)));

    let mut third = receiver.recv_async();
    assert!(poll(&mut third, &flags[0]).is_pending());
    sender.send(3).unwrap();
    drop(third);
    assert_eq!(sender.try_send(4), Err(TrySendError::Full(4)));
    assert_eq!((receiver.len(), receiver.recv()), (1, Ok(3)));

    let mut fourth = receiver.recv_async();
    assert!(poll(&mut fourth, &flags[0]).is_pending());
    drop(fourth);
    assert_eq!(sender.try_send(5), Err(TrySendError::Full(5)));
}

#[test]
fn an_end_gives_values_back() {
    for is_closed in [false, true] {
        let (sender, receiver) = bounded(0);
        let waiting = [1, 2].map(|it| {
            let sender = sender.clone();
            thread::spawn(move || sender.send(it))
        });
        let mut future = sender.send_async(3);
        let flag = Arc::<Flag>::default();
        assert!(poll(&mut future, &flag).is_pending());
        thread::sleep(SHORT * 5);
        if is_closed {
            assert!(receiver.close());
            assert_eq!(receiver.recv(), Err(RecvError));
        } else {
            drop(receiver);
        }
        let back = waiting.map(|it| it.join().unwrap());
        assert_eq!(back, [Err(SendError(1)), Err(SendError(2))]);
        assert!(flag.take());
        assert_eq!(poll(&mut future, &flag), Poll::Ready(Err(SendError(3))));
        assert_eq!(sender.try_send(4), Err(TrySendError::Disconnected(4)));
    }
    let (sender, receiver) = bounded::<u8>(0);
    let sleeper = thread::spawn(move || receiver.recv());
    thread::sleep(SHORT * 5);
    drop(sender);
    assert_eq!(sleeper.join().unwrap(), Err(RecvError));
}

#[test]
fn a_job_of_a_meeting_comes_back() {
    let (sender, receiver, audit) = Builder::new().bound(0).audited();
    let number = sender.number();
    let sending = thread::spawn(move || sender.send(1));
    drop(receiver.recv_job().unwrap());
    sending.join().unwrap().unwrap();
    assert_eq!(receiver.recv_job().unwrap().done(), 1);
    assert!(receiver.recv_job().is_err());
    let totals = audit.totals();
    assert_eq!(totals.sent, BTreeMap::from([(number, 1)]));
    assert_eq!(totals.taken, BTreeMap::from([(receiver.number(), 2)]));
    assert_eq!((totals.given_back, totals.left), (1, 0));
    assert!(audit.accounts().is_empty());
}

/// Many senders and receivers, some of which give up at any time. Each value comes once, and each side ends.
#[test]
fn each_value_of_a_meeting_comes_once() {
    const EACH: usize = 5_000;
    let (sender, receiver) = bounded(0);
    let takers = [0, 1, 2, 3].map(|kind| {
        let receiver = receiver.clone();
        thread::spawn(move || {
            let mut taken = Vec::new();
            loop {
                let result = match kind {
                    0 => receiver.recv().map_err(Into::into),
                    1 => receiver.recv_timeout(Duration::from_micros(5)),
                    2 => run::run(receiver.recv_async()).map_err(Into::into),
                    _ => {
                        let mut future = receiver.recv_async();
                        match poll(&mut future, &Arc::<Flag>::default()) {
                            Poll::Ready(result) => result.map_err(Into::into),
                            Poll::Pending => continue, // (it is dropped)
                        }
                    }
                };
                match result {
                    Ok(value) => taken.push(value),
                    Err(why) if why.is_timeout() => {}
                    Err(_) => return taken,
                }
            }
        })
    });
    drop(receiver);
    let senders = [0, 1, 2, 3].map(|kind| {
        let sender = sender.clone();
        thread::spawn(move || {
            for place in 0..EACH {
                let mut value = (kind, place);
                loop {
                    let sent = match kind {
                        0 => sender.send(value).map_err(Into::into),
                        1 => sender.send_timeout(value, Duration::from_micros(5)),
                        2 => run::run(sender.send_async(value)).map_err(Into::into),
                        _ => sender.try_send(value).map_err(|why| {
                            thread::yield_now();
                            SendTimeoutError::Timeout(why.into_inner())
                        }),
                    };
                    match sent {
                        Ok(()) => break,
                        Err(why) => {
                            assert!(why.is_timeout());
                            value = why.into_inner();
                        }
                    }
                }
            }
        })
    });
    drop(sender);
    assert!(senders.into_iter().all(|it| it.join().is_ok()));
    let taken = takers.map(|it| it.join().unwrap());
    let mut all = taken.concat();
    all.sort_unstable();
    let sent = (0..4).flat_map(|kind| (0..EACH).map(move |place| (kind, place)));
    assert!(all.into_iter().eq(sent));
}
