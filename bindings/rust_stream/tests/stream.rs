//! Tests of the streams.
#[path = "../../rust/tests/run/mod.rs"]
mod run;

use futures_core::{FusedStream, Stream};
use hazbultra::channel::{bounded, unbounded};
use hazbultra_stream::RecvStream;
use run::{Flag, run};
use std::future::poll_fn;
use std::pin::Pin;
use std::sync::Arc;
use std::task::{Context, Poll};
use std::thread;

/// All that a stream has, in a thread of its own.
fn collect<S>(mut stream: S) -> thread::JoinHandle<Vec<S::Item>>
where
    S: Stream<Item: Send> + Unpin + Send + 'static,
{
    thread::spawn(move || {
        let mut all = Vec::new();
        while let Some(value) = run(poll_fn(|it| Pin::new(&mut stream).poll_next(it))) {
            all.push(value);
        }
        all
    })
}

#[test]
fn a_stream_has_all_values_in_order() {
    for bound in [0, 3] {
        let (sender, receiver) = bounded(bound);
        let all = collect(RecvStream::from(receiver));
        (0..1000).for_each(|it| sender.send(it).unwrap());
        drop(sender);
        assert!(all.join().unwrap().into_iter().eq(0..1000));
    }
}

#[test]
fn a_stream_waits_and_ends() {
    let (sender, receiver) = unbounded();
    let mut stream = RecvStream::from(&receiver);
    let flag = Arc::<Flag>::default();
    let waker = Arc::clone(&flag).into();
    let mut next = || {
        let polled = Pin::new(&mut stream).poll_next(&mut Context::from_waker(&waker));
        (polled, stream.is_terminated())
    };
    assert_eq!(next(), (Poll::Pending, false));
    sender.send(1).unwrap();
    assert!(flag.take());
    assert_eq!(next(), (Poll::Ready(Some(1)), false));
    assert_eq!(next(), (Poll::Pending, false));
    drop(sender);
    assert!(flag.take());
    assert_eq!(next(), (Poll::Ready(None), true));
    assert_eq!(next(), (Poll::Ready(None), true));
}
