//! Tests of the channel's calls for its end, for ends that do not count, and for tasks.
mod run;

use hazbultra::channel::{Builder, bounded, unbounded};
use hazbultra::channel::{RecvError, RecvTimeoutError, SendError, TryRecvError, TrySendError};
use run::{Flag, poll, run};
use std::future::Future;
use std::iter::FusedIterator;
use std::sync::Arc;
use std::task::Poll;
use std::thread;
use std::time::{Duration, Instant};

const SHORT: Duration = Duration::from_millis(20);

#[test]
fn after_a_close_nothing_is_sent_and_all_that_is_left_is_received() {
    let (sender, receiver) = unbounded();
    (0..4).for_each(|it| sender.send(it).unwrap());
    assert!(!receiver.is_closed());
    assert!(sender.close() && !sender.close() && !receiver.close());
    assert!(sender.is_closed() && receiver.is_closed());
    assert_eq!(sender.send(5), Err(SendError(5)));
    assert_eq!(
        sender.clone().try_send(6),
        Err(TrySendError::Disconnected(6))
    );
    assert!(receiver.iter().eq(0..4));
    assert_eq!(receiver.try_recv(), Err(TryRecvError::Disconnected));
}

#[test]
fn a_close_wakes_sleepers_of_both_sides() {
    let (sender, receiver) = bounded(1);
    sender.send(1).unwrap();
    let (sleeper, flag) = (sender.clone(), Arc::<Flag>::default());
    let sleeper = thread::spawn(move || sleeper.send(2));
    let mut sending = sender.send_async(3);
    assert!(poll(&mut sending, &flag).is_pending());
    thread::sleep(SHORT * 5);
    sender.close();
    assert_eq!(sleeper.join().unwrap(), Err(SendError(2)));
    assert!(flag.take());
    assert_eq!(poll(&mut sending, &flag), Poll::Ready(Err(SendError(3))));
    assert_eq!((receiver.recv(), receiver.recv()), (Ok(1), Err(RecvError)));

    let (sender, receiver) = unbounded::<u8>();
    let mut future = receiver.recv_async();
    assert!(poll(&mut future, &flag).is_pending());
    let sleeper = receiver.clone();
    let sleeper = thread::spawn(move || sleeper.recv());
    thread::sleep(SHORT * 5);
    sender.close();
    assert_eq!(sleeper.join().unwrap(), Err(RecvError));
    assert!(flag.take());
    assert_eq!(poll(&mut future, &flag), Poll::Ready(Err(RecvError)));
}

#[test]
fn a_job_comes_back_after_a_close() {
    let (sender, receiver) = bounded(1);
    sender.send(1).unwrap();
    let job = receiver.recv_job().unwrap();
    sender.send(2).unwrap();
    receiver.close();
    assert_eq!(receiver.recv(), Ok(2));
    assert_eq!(receiver.try_recv(), Err(TryRecvError::Empty));
    drop(job);
    assert_eq!((receiver.recv(), receiver.recv()), (Ok(1), Err(RecvError)));
}

/// Each value whose send succeeds is taken, also if the channel is closed meanwhile.
#[test]
fn a_close_loses_no_value() {
    for _ in 0..300 {
        let (sender, receiver) = unbounded();
        let senders = [0, 1].map(|_| sender.clone());
        let senders =
            senders.map(|it| thread::spawn(move || (0..usize::MAX).find(|n| it.send(*n).is_err())));
        let closer = receiver.clone();
        let taker = thread::spawn(move || receiver.iter().count());
        closer.close();
        let sent = senders.map(|it| it.join().unwrap().unwrap());
        assert_eq!(taker.join().unwrap(), sent.iter().sum::<usize>());
    }
}

#[test]
fn ends_are_counted() {
    let (sender, receiver) = unbounded::<u8>();
    assert_eq!((receiver.sender_count(), receiver.receiver_count()), (1, 1));
    let (other, weak) = (sender.clone(), receiver.downgrade());
    let _more = weak.upgrade();
    assert_eq!((receiver.sender_count(), sender.receiver_count()), (2, 2));
    drop((sender, other));
    assert_eq!((receiver.sender_count(), receiver.is_closed()), (0, true));
}

#[test]
fn a_weak_end_keeps_nothing_open() {
    let (sender, receiver) = unbounded();
    let (weak, weaker) = (sender.downgrade(), receiver.downgrade());
    let again = weak.clone().upgrade().unwrap();
    assert!(again.same_channel(&sender));
    again.send(Arc::new(1)).unwrap();
    drop((again, sender));
    assert!(weak.upgrade().is_none());
    let value = Arc::clone(&receiver.recv().unwrap());
    assert_eq!(receiver.recv(), Err(RecvError));

    let (sender, others) = unbounded();
    let weakest = others.downgrade();
    sender.send(Arc::clone(&value)).unwrap();
    drop(others);
    assert_eq!(Arc::strong_count(&value), 1, "a weak end keeps no value");
    assert!(weakest.upgrade().is_none() && weaker.upgrade().is_some());
}

#[test]
fn a_drain_takes_what_waits_now() {
    let (sender, receiver) = unbounded();
    (0..5).for_each(|it| sender.send(it).unwrap());
    let mut drain = receiver.drain();
    assert_eq!(drain.size_hint(), (0, Some(5)));
    sender.send(5).unwrap();
    assert!(drain.by_ref().take(2).eq(0..2));
    assert!(drain.by_ref().eq(2..5));
    assert_eq!((drain.next(), receiver.len()), (None, 1));

    let drain = receiver.drain();
    receiver.recv().unwrap();
    assert_eq!(drain.count(), 0, "another call took it");
}

/// Runs a task in a thread of its own, as an executor does.
fn spawn<F>(task: F) -> thread::JoinHandle<F::Output>
where
    F: Future<Output: Send> + Send + 'static,
{
    thread::spawn(|| run(task))
}

#[test]
fn futures_may_own_their_ends() {
    for bound in [0, 1] {
        let (sender, receiver) = bounded(bound);
        let taken = [(); 3].map(|()| spawn(receiver.clone().into_recv_async()));
        drop(receiver);
        let sent = [1, 2, 3].map(|it| spawn(sender.clone().into_send_async(it)));
        assert_eq!(sent.map(|it| it.join().unwrap()), [Ok(()); 3]);
        let mut values = taken.map(|it| it.join().unwrap().unwrap());
        values.sort_unstable();
        assert_eq!(values, [1, 2, 3]);
        assert!(sender.is_closed(), "each future drops its receiver");
    }
}

#[test]
fn a_future_starts_again() {
    let (sender, receiver) = unbounded();
    let mut future = receiver.into_recv_async();
    for value in 0..5 {
        future.restart();
        let flag = Arc::<Flag>::default();
        assert!(poll(&mut future, &flag).is_pending());
        future.restart(); // (it waits, so this does nothing)
        sender.send(value).unwrap();
        assert!(flag.take());
        assert_eq!(poll(&mut future, &flag), Poll::Ready(Ok(value)));
    }
}

#[test]
fn a_worker_waits_for_a_job_as_long_as_it_wants() {
    let (sender, receiver) = unbounded();
    assert_eq!(
        receiver.recv_job_timeout(SHORT).unwrap_err(),
        RecvTimeoutError::Timeout
    );
    assert!(receiver.recv_job_deadline(Instant::now()).is_err());
    sender.send(1).unwrap();
    drop(receiver.recv_job_timeout(SHORT).unwrap());
    drop(receiver.recv_job_deadline(Instant::now() + SHORT).unwrap());
    let flag = Arc::<Flag>::default();
    let mut future = receiver.recv_job_async();
    let Poll::Ready(Ok(job)) = poll(&mut future, &flag) else {
        panic!("a value is there");
    };
    let mut next = receiver.recv_job_async();
    assert!(poll(&mut next, &flag).is_pending());
    drop((job, sender));
    assert!(flag.take());
    let Poll::Ready(Ok(job)) = poll(&mut next, &flag) else {
        panic!("the value came back");
    };
    assert!(receiver.recv_job_timeout(SHORT).unwrap_err().is_timeout());
    assert_eq!(job.done(), 1);
    assert!(run(receiver.recv_job_async()).is_err());
}

#[test]
fn iterators_of_all_types_are_shown_and_fused() {
    struct Plain;
    fn is_fused(_: &impl FusedIterator) {}
    let (sender, receiver) = unbounded();
    sender.send(Plain).unwrap();
    is_fused(&receiver.iter());
    is_fused(&receiver.drain());
    is_fused(&receiver.clone().into_iter());
    let shown = [
        format!("{:?}", receiver.iter()),
        format!("{:?}", receiver.try_iter()),
        format!("{:?}", receiver.drain()),
        format!("{:?}", receiver.clone().into_iter()),
        format!("{:?} {:?}", sender.downgrade(), receiver.downgrade()),
    ];
    assert_eq!(
        shown.join(", "),
        "Iter { .. }, TryIter { .. }, Drain { .. }, IntoIter { .. }, WeakSender { .. } WeakReceiver { .. }"
    );
    assert!(matches!(receiver.recv(), Ok(Plain)));
}

#[test]
fn a_panic_says_where_the_call_stands() {
    let (lines, seen) = std::sync::mpsc::channel();
    let old = std::panic::take_hook();
    std::panic::set_hook(Box::new(move |why| {
        let at = why.location().map(|it| it.file().to_owned());
        lines.send(at).unwrap_or(());
    }));
    let caught = std::panic::catch_unwind(|| Builder::new().account(0));
    std::panic::set_hook(old);
    assert!(caught.is_err());
    assert_eq!(seen.recv().unwrap().as_deref(), Some(file!()));
}
