//! Where the values stand between a send and a receive. The rest of the channel asks to put one, to take one, to close, and
//! how many there are. Nothing else of it knows how that is done.
mod meeting;
mod place;
mod row;

pub(super) use meeting::{Meeting, Ticket};
pub(super) use place::{At, Chair, Desk, Sending, Stand, Taking};

use super::audit::{GIVEN_BACK, Ledger};
use super::system::Waiters;
use row::Row;
use std::sync::Arc;
use std::sync::atomic::{AtomicU8, Ordering::SeqCst};

/// How a channel is made.
pub(super) struct Plan<T> {
    /// So many values may wait, if it has a bound.
    pub(super) bound: Option<usize>,
    pub(super) audit: Option<Arc<Ledger<T>>>,
}

/// The result of a look.
pub(super) enum Look<T> {
    Took(T),
    /// There was a moment, during this look, at which nothing was there.
    Nothing,
    /// Nothing is left here, and nothing comes here.
    Over,
}

/// Who may still put values.
#[derive(Clone, Copy, PartialEq)]
pub(super) enum State {
    Open,
    /// No sender. What a job gives back comes in.
    Closed,
    /// Nobody: all receivers are gone.
    Left,
}

/// The state of a store.
struct Status(AtomicU8);

impl Status {
    fn open() -> Status {
        Status(AtomicU8::new(State::Open as u8))
    }

    #[inline]
    fn state(&self) -> State {
        match self.0.load(SeqCst) {
            0 => State::Open,
            1 => State::Closed,
            _ => State::Left,
        }
    }

    /// Goes on to this state, or stays in a later one. Returns whether it was open.
    fn advance(&self, to: State) -> bool {
        self.0.fetch_max(to as u8, SeqCst) == State::Open as u8
    }

    /// Whether a value of this sender, or job, comes in.
    #[inline]
    fn admits(&self, who: u64) -> bool {
        match self.state() {
            State::Open => true,
            State::Closed => who == GIVEN_BACK,
            State::Left => false,
        }
    }
}

/// Why a value was not put. It is in it.
pub(super) enum Refused<T> {
    /// There was a moment, during this call, at which as many values waited as the bound allows.
    Full(T),
    Closed(T),
    NoMemory(T),
}

impl<T> Refused<T> {
    pub(super) fn into_inner(self) -> T {
        match self {
            Refused::Full(value) | Refused::Closed(value) | Refused::NoMemory(value) => value,
        }
    }
}

/// A store by its bound.
#[allow(clippy::large_enum_variant, reason = "there is one of it in a channel")]
pub(super) enum Store<T> {
    Row(Row<T>),
    /// The bound is 0.
    Meeting(Meeting<T>),
}

impl<T> Store<T> {
    pub(super) fn new(plan: Plan<T>) -> Store<T> {
        match plan.bound {
            Some(0) => Store::Meeting(Meeting::new(plan.audit)),
            _ => Store::Row(Row::new(plan)),
        }
    }

    pub(super) fn meeting(&self) -> Option<&Meeting<T>> {
        match self {
            Store::Meeting(meeting) => Some(meeting),
            Store::Row(_) => None,
        }
    }

    pub(super) fn bound(&self) -> Option<usize> {
        match self {
            Store::Row(row) => row.bound(),
            Store::Meeting(_) => Some(0),
        }
    }

    /// How many values wait, at one moment of this call.
    pub(super) fn len(&self) -> usize {
        match self {
            Store::Row(row) => row.len(),
            Store::Meeting(meeting) => meeting.len(),
        }
    }

    /// Whether a sender finds no room, as far as can be seen without a lock.
    pub(super) fn seems_full(&self) -> bool {
        match self {
            Store::Row(row) => row.seems_full(),
            Store::Meeting(_) => true,
        }
    }

    /// Puts a value for any receiver, of a sender that has no desk or of a job.
    #[inline]
    pub(super) fn put(
        &self,
        stand: Option<&Stand<T>>,
        value: T,
        who: u64,
    ) -> Result<(), Refused<T>> {
        match self {
            Store::Row(row) => row.put(stand, value, who),
            Store::Meeting(meeting) => meeting.put(value, who),
        }
    }

    /// The row of a sender that has a desk, or of a receiver that has a seat.
    pub(super) fn row(&self) -> &Row<T> {
        match self {
            Store::Row(row) => row,
            Store::Meeting(_) => unreachable!("no end of a meeting has a place"),
        }
    }

    /// Takes the first value that nobody else takes. At a meeting a receiver that waits has a ticket. If there is room now, it
    /// wakes one of those that wait for that.
    #[inline]
    pub(super) fn take(
        &self,
        chair: &Chair<T>,
        who: u64,
        ticket: Option<&Ticket>,
        full: &Waiters,
    ) -> Look<T> {
        match self {
            Store::Row(row) => row.take(chair, who, full),
            Store::Meeting(meeting) => meeting.take(who, ticket),
        }
    }

    /// A sender goes.
    pub(super) fn leave_stand(&self, stand: &Stand<T>) {
        if let (Store::Row(row), Some(desk)) = (self, stand.desk()) {
            row.leave_desk(desk);
        }
    }

    /// A receiver goes.
    pub(super) fn leave_chair(&self, chair: &Chair<T>) {
        if let (Store::Row(row), Some(seat)) = (self, chair.get()) {
            row.leave_seat(seat);
        }
    }

    pub(super) fn state(&self) -> State {
        match self {
            Store::Row(row) => row.state(),
            Store::Meeting(meeting) => meeting.state(),
        }
    }

    /// Goes on to this state, after which it takes fewer values. Returns whether it was open.
    pub(super) fn close(&self, to: State) -> bool {
        match self {
            Store::Row(row) => row.close(to),
            Store::Meeting(meeting) => meeting.close(to),
        }
    }

    /// Drops what is left, after all receivers are gone.
    pub(super) fn end(&self) {
        match self {
            Store::Row(row) => row.end(),
            Store::Meeting(meeting) => meeting.end(),
        }
    }
}
