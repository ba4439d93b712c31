//! A [`Stream`] of the values of a [`Receiver`]. This is a crate of its own, since `hazbultra` depends on no other crate.
//!
//! ```
//! use futures_core::Stream;
//! use hazbultra::channel;
//! use hazbultra_stream::RecvStream;
//!
//! fn sum(numbers: impl Stream<Item = u64>) {
//!     // (what works on streams goes here)
//! #   drop(numbers);
//! }
//! let (sender, receiver) = channel::unbounded();
//! sender.send(1).unwrap();
//! sum(RecvStream::from(receiver)); // or RecvStream::from(&receiver)
//! ```
use futures_core::{FusedStream, Stream};
use hazbultra::channel::{Receiver, RecvFuture};
use std::fmt;
use std::future::Future;
use std::pin::Pin;
use std::task::{Context, Poll, ready};

/// The values that a receiver receives, until nothing comes any more. It has the receiver, or borrows it.
#[must_use = "it receives nothing until it is polled"]
pub struct RecvStream<'a, T> {
    /// (there until the end)
    next: Option<RecvFuture<'a, T>>,
}

impl<'a, T> From<&'a Receiver<T>> for RecvStream<'a, T> {
    fn from(receiver: &'a Receiver<T>) -> Self {
        let next = Some(receiver.recv_async());
        RecvStream { next }
    }
}

impl<'a, T: 'a> From<Receiver<T>> for RecvStream<'a, T> {
    fn from(receiver: Receiver<T>) -> Self {
        let next = Some(receiver.into_recv_async());
        RecvStream { next }
    }
}

impl<T> Stream for RecvStream<'_, T> {
    type Item = T;

    fn poll_next(self: Pin<&mut Self>, context: &mut Context<'_>) -> Poll<Option<T>> {
        let next = &mut self.get_mut().next;
        let Some(future) = next else {
            return Poll::Ready(None);
        };
        future.restart();
        let value = ready!(Pin::new(future).poll(context)).ok();
        if value.is_none() {
            *next = None;
        }
        Poll::Ready(value)
    }
}

impl<T> FusedStream for RecvStream<'_, T> {
    fn is_terminated(&self) -> bool {
        self.next.is_none()
    }
}

impl<T> fmt::Debug for RecvStream<'_, T> {
    fn fmt(&self, f: &mut fmt::Formatter<'_>) -> fmt::Result {
        f.write_str("RecvStream { .. }")
    }
}
