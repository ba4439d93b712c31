//! The futures of a sender and of a receiver.
use super::errors::{RecvError, SendError, written};
use super::job::Job;
use super::parcel::Parcel;
use super::receiver::Receiver;
use super::sender::Sender;
use super::store::{Look, Refused, Ticket};
use std::borrow::Cow;
use std::future::Future;
use std::pin::Pin;
use std::task::{Context, Poll};

/// A value that is to be sent. [`Sender::send_async`] and [`Sender::into_send_async`] make it.
#[must_use = "it sends nothing until it is polled"]
pub struct SendFuture<'a, T> {
    sender: Cow<'a, Sender<T>>,
    /// (there until the first poll)
    value: Option<T>,
    /// (there while it waits)
    parcel: Option<Parcel<T>>,
    place: Option<u64>,
}

impl<'a, T> SendFuture<'a, T> {
    pub(super) fn new(sender: Cow<'a, Sender<T>>, value: T) -> Self {
        SendFuture {
            sender,
            value: Some(value),
            parcel: None,
            place: None,
        }
    }
}

impl<T> Unpin for SendFuture<'_, T> {}

impl<T> Future for SendFuture<'_, T> {
    type Output = Result<(), SendError<T>>;

    /// # Panics
    /// The future was ready at an earlier poll.
    #[track_caller]
    fn poll(self: Pin<&mut Self>, context: &mut Context<'_>) -> Poll<Self::Output> {
        let this = self.get_mut();
        let (shared, number) = (&this.sender.shared, this.sender.number);
        let told = |sent: Result<(), Refused<T>>| sent.map_err(|why| SendError(why.into_inner()));
        if let Some(value) = this.value.take() {
            match this.sender.put(value) {
                Err(Refused::Full(value)) => this.parcel = Some(shared.parcel(value, number)),
                sent => return Poll::Ready(told(sent)),
            }
        }
        let parcel = this.parcel.as_mut();
        let parcel = parcel.expect("a future is polled until it is ready");
        let bell = parcel.bell();
        let list = bell.as_deref().unwrap_or(&shared.full);
        let look = || parcel.look(shared, number);
        let polled = list.poll(&mut this.place, context.waker(), look);
        if polled.is_ready() {
            this.parcel = None;
        }
        polled.map(told)
    }
}

impl<T> Drop for SendFuture<'_, T> {
    fn drop(&mut self) {
        let shared = &self.sender.shared;
        if let Some(parcel) = self.parcel.take() {
            let bell = parcel.bell();
            let list = bell.as_deref().unwrap_or(&shared.full);
            if let Some(place) = self.place {
                list.leave(place);
            }
            drop(parcel.take_back(shared));
        }
    }
}

/// A receiver that waits as a task.
struct Waiting<'a, T> {
    receiver: Cow<'a, Receiver<T>>,
    stage: Stage,
    ticket: Option<Ticket>,
    place: Option<u64>,
}

#[derive(PartialEq)]
enum Stage {
    New,
    Waits,
    Ready,
}

impl<'a, T> Waiting<'a, T> {
    fn new(receiver: Cow<'a, Receiver<T>>) -> Self {
        Waiting {
            receiver,
            stage: Stage::New,
            ticket: None,
            place: None,
        }
    }

    #[track_caller]
    fn poll<G>(
        &mut self,
        context: &mut Context<'_>,
        take: impl Fn(&Receiver<T>, Option<&Ticket>) -> Look<G>,
    ) -> Poll<Result<G, RecvError>> {
        let (receiver, waker) = (&*self.receiver, context.waker());
        let shared = &receiver.shared;
        assert!(
            self.stage != Stage::Ready,
            "a future is polled until it is ready"
        );
        if self.stage == Stage::New {
            self.ticket = shared.arrive(true);
            self.stage = Stage::Waits;
        }
        let ticket = self.ticket.as_ref();
        let list = ticket.map_or(&shared.empty, |it| &it.bell);
        let look = || match take(receiver, ticket) {
            Look::Nothing => None,
            look => Some(look),
        };
        let result = match list.poll(&mut self.place, waker, look) {
            Poll::Pending | Poll::Ready(Look::Nothing) => return Poll::Pending,
            Poll::Ready(Look::Took(value)) => Ok(value),
            Poll::Ready(Look::Over) => {
                shared.abandon(ticket);
                Err(RecvError)
            }
        };
        self.stage = Stage::Ready;
        Poll::Ready(result)
    }
}

impl<T> Drop for Waiting<'_, T> {
    fn drop(&mut self) {
        let shared = &self.receiver.shared;
        if self.stage == Stage::Waits {
            shared.abandon(self.ticket.as_ref());
        }
        if let (Some(place), None) = (self.place, &self.ticket) {
            shared.empty.leave(place);
        }
    }
}

/// A value that is to be received. [`Receiver::recv_async`] and [`Receiver::into_recv_async`] make it.
#[must_use = "it receives nothing until it is polled"]
pub struct RecvFuture<'a, T>(Waiting<'a, T>);

impl<'a, T> RecvFuture<'a, T> {
    pub(super) fn new(receiver: Cow<'a, Receiver<T>>) -> Self {
        RecvFuture(Waiting::new(receiver))
    }

    /// If it was ready, makes it wait for the next value. Else it does nothing.
    pub fn restart(&mut self) {
        if self.0.stage == Stage::Ready {
            self.0.stage = Stage::New;
        }
    }
}

impl<T> Future for RecvFuture<'_, T> {
    type Output = Result<T, RecvError>;

    /// # Panics
    /// The future was ready at an earlier poll, and not [restarted](RecvFuture::restart).
    #[track_caller]
    fn poll(self: Pin<&mut Self>, context: &mut Context<'_>) -> Poll<Self::Output> {
        self.get_mut().0.poll(context, Receiver::take)
    }
}

/// A value that is to be received as a job. [`Receiver::recv_job_async`] makes it.
#[must_use = "it receives nothing until it is polled"]
pub struct JobFuture<'a, T>(Waiting<'a, T>);

impl<'a, T> JobFuture<'a, T> {
    pub(super) fn new(receiver: Cow<'a, Receiver<T>>) -> Self {
        JobFuture(Waiting::new(receiver))
    }
}

impl<T> Future for JobFuture<'_, T> {
    type Output = Result<Job<T>, RecvError>;

    /// # Panics
    /// The future was ready at an earlier poll.
    #[track_caller]
    fn poll(self: Pin<&mut Self>, context: &mut Context<'_>) -> Poll<Self::Output> {
        self.get_mut().0.poll(context, Receiver::take_job)
    }
}

written! {
    Debug [T] SendFuture<'_, T>: |_| "SendFuture { .. }";
    Debug [T] RecvFuture<'_, T>: |_| "RecvFuture { .. }";
    Debug [T] JobFuture<'_, T>: |_| "JobFuture { .. }";
}
