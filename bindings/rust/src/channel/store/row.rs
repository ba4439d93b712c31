//! A row of values, which is a proved channel of the archive. Each sender and each receiver has an end of it.
//!
//! The archive decides in which order the values stand, who takes which, and when nothing is left. An end is for one call
//! at a time, so each stands at a place of its own, under a latch. With a bound, all senders share one end, and so one
//! latch: under it they see that there is room, and then send.
//!
//! **A receiver finds nothing only at a moment at which nothing is there.** Either the archive says so of its call, or the
//! row is closed and all is taken that was sent or given back.
//!
//! An end that stands in a segment of the row keeps that segment and all later ones. So ends that do nothing are replaced
//! from time to time by new ones, which stand in no segment.
use super::place::{At, Chair, Desk, Place, Places, Seat, Stand, Taking};
use super::{Look, Plan, Refused, State, Status};
use crate::channel::audit::{GIVEN_BACK, Ledger};
use crate::channel::system::{Line, Panics, Waiters, lock};
use crate::ffi::{self, Inlet, Looked, Outlet, Unsent, Untaken};
use std::alloc::{Layout, handle_alloc_error};
use std::collections::VecDeque;
use std::sync::atomic::AtomicU64;
use std::sync::atomic::Ordering::{Acquire, Relaxed, Release, SeqCst};
use std::sync::{Arc, Mutex};
use std::{iter, mem};

/// After so many takes a receiver looks which ends do nothing. (So many values are in a segment.)
const TIDY: u64 = 1024;

pub(crate) struct Row<T> {
    plan: Plan<T>,
    status: Status,
    home: Mutex<Home<T>>,
    /// The desk of those that have none: jobs, new senders, and all senders if there is a bound or an audit.
    lane: Desk<T>,
    standing: Mutex<Standing<T>>,
    sent: Line<Sent>,
    /// How many were taken, if there is a bound. A take counts before its seat's latch is left.
    taken: Line<AtomicU64>,
    /// What jobs gave back after the row was closed. It comes after all that is in the row.
    back: Mutex<VecDeque<T>>,
}

/// What senders know, if there is a bound. It changes under the lane's latch.
#[derive(Default)]
struct Sent {
    /// How many values were sent.
    count: AtomicU64,
    /// So many were taken when a sender last looked.
    taken: AtomicU64,
}

/// The ends from which all others are made. They stand in no segment until the row is closed.
struct Home<T> {
    inlet: Inlet<T>,
    outlet: Outlet<T>,
}

struct Standing<T> {
    desks: Places<Inlet<T>>,
    seats: Places<Outlet<T>>,
    /// How often it was time to tidy up since that was done.
    due: u64,
}

/// An end, or what Rust does if there is no memory for a new thing.
fn made<E>(end: Option<E>) -> E {
    end.unwrap_or_else(|| handle_alloc_error(Layout::new::<E>()))
}

/// After how many takes more a receiver tidies up. (Receivers do so at different times.)
fn until_tidy(count: u64, who: u64) -> u64 {
    TIDY - count.wrapping_add(who.wrapping_mul(389)) % TIDY
}

impl<T> Row<T> {
    pub(crate) fn new(plan: Plan<T>) -> Row<T> {
        let (mut inlet, outlet) = made(ffi::ends(plan.audit.is_some()));
        Row {
            plan,
            status: Status::open(),
            lane: Place::new(made(inlet.another()), u64::MAX),
            home: Mutex::new(Home { inlet, outlet }),
            standing: Mutex::new(Standing {
                desks: Places::default(),
                seats: Places::default(),
                due: 0,
            }),
            sent: Line(Sent::default()),
            taken: Line(AtomicU64::new(0)),
            back: Mutex::default(),
        }
    }

    pub(crate) fn bound(&self) -> Option<usize> {
        self.plan.bound
    }

    pub(crate) fn state(&self) -> State {
        self.status.state()
    }

    /// Counts a send of a sender that has no desk, and gives it one if it is time for that, and there is memory.
    #[inline(never)]
    fn settle(&self, stand: &Stand<T>) {
        if !stand.is_due() {
            return;
        }
        let inlet = lock(&self.home).inlet.another();
        // (whoever tidies up takes the two locks in the other order)
        if let Some(inlet) = inlet {
            let desk = Place::new(inlet, u64::MAX);
            let desk = lock(&self.standing).desks.add(desk);
            stand.give(desk);
        }
    }

    fn new_seat(&self, who: u64) -> Arc<Seat<T>> {
        let outlet = made(lock(&self.home).outlet.another());
        let seat = Place::new(outlet, self.plain_takes(0, who));
        lock(&self.standing).seats.add(seat)
    }

    /// After so many takes more, a receiver has more to do than to count. With a bound that is each take.
    fn plain_takes(&self, count: u64, who: u64) -> u64 {
        if self.plan.bound.is_some() {
            return 1;
        }
        until_tidy(count, who)
    }

    /// A sender goes.
    pub(crate) fn leave_desk(&self, desk: &Arc<Desk<T>>) {
        lock(&self.standing).desks.remove(desk);
    }

    /// A receiver goes.
    pub(crate) fn leave_seat(&self, seat: &Arc<Seat<T>>) {
        if lock(&self.standing).seats.remove(seat) {
            self.tidy();
        }
    }

    /// Sends a value from the lane, of a sender that has no desk.
    pub(crate) fn put(
        &self,
        stand: Option<&Stand<T>>,
        value: T,
        who: u64,
    ) -> Result<(), Refused<T>> {
        self.put_in_lane(value, who)?;
        let is_alone = self.plan.bound.is_none() && self.plan.audit.is_none();
        if let (Some(stand), true) = (stand, is_alone) {
            self.settle(stand);
        }
        Ok(())
    }

    fn put_in_lane(&self, value: T, who: u64) -> Result<(), Refused<T>> {
        let mut at = self.lane.hold();
        if let Some(bound) = self.plan.bound.filter(|_| who != GIVEN_BACK) {
            if !self.status.admits(who) {
                return Err(Refused::Closed(value));
            }
            if self.is_full(bound) {
                return Err(Refused::Full(value));
            }
        }
        let sent = match &self.plan.audit {
            None => (at.end.send(value)).or_else(|begun| at.end.send_further(begun)),
            Some(_) => at.end.send_signed(value, who),
        };
        match sent {
            Ok(()) => {
                self.count(&mut at);
                Ok(())
            }
            Err(why) => self.refused(at, why, who),
        }
    }

    /// Counts a value as sent.
    fn count(&self, at: &mut At<'_, Inlet<T>>) {
        at.pass();
        if self.plan.bound.is_some() {
            self.sent.0.count.store(at.count(), Release);
        }
    }

    /// What a value that was not sent comes to at the lane. What a job gives back is kept, unless all receivers are gone.
    #[cold]
    fn refused(
        &self,
        mut at: At<'_, Inlet<T>>,
        why: Unsent<T>,
        who: u64,
    ) -> Result<(), Refused<T>> {
        let value = match self.refusal(why) {
            Refused::Closed(value) => value,
            why => return Err(why),
        };
        let mut back = lock(&self.back);
        if !self.status.admits(who) {
            return Err(Refused::Closed(value));
        }
        if back.try_reserve(1).is_err() {
            return Err(Refused::NoMemory(value));
        }
        back.push_back(value);
        self.count(&mut at);
        Ok(())
    }

    /// What a sender is told whose value was not sent.
    #[cold]
    pub(crate) fn refusal(&self, why: Unsent<T>) -> Refused<T> {
        match why {
            Unsent::NoMemory(value) => Refused::NoMemory(value),
            Unsent::Closed(value) => {
                // (whoever closes the row says so under this lock, after it is done)
                drop(lock(&self.home));
                Refused::Closed(value)
            }
        }
    }

    /// Whether there is no room for a sender. The lane is held.
    fn is_full(&self, bound: usize) -> bool {
        let Sent { count, taken } = &self.sent.0;
        let sent = count.load(Relaxed);
        let is_full = |taken: u64| sent - taken >= bound as u64;
        let look = || {
            let now = self.taken.0.load(SeqCst);
            taken.store(now, Relaxed);
            is_full(now)
        };
        // (a take that is under way, at a seat that is held, may have made room)
        is_full(taken.load(Relaxed)) && look() && {
            let standing = lock(&self.standing);
            standing.seats.iter().for_each(|it| drop(it.hold()));
            drop(standing);
            look()
        }
    }

    /// Takes the first value that nobody else takes, for a receiver that may have no seat.
    pub(crate) fn take(&self, chair: &Chair<T>, who: u64, full: &Waiters) -> Look<T> {
        let seat = chair.get_or_init(|| self.new_seat(who));
        self.take_further(Taking::begin(seat), who, full)
    }

    /// Goes on with a take. A value that is just being sent or taken may hold this up.
    pub(crate) fn take_further(&self, taking: Taking<'_, T>, who: u64, full: &Waiters) -> Look<T> {
        let Taking { mut at, mut looked } = taking;
        let mut turn = 0;
        loop {
            let taken = match &self.plan.audit {
                None => at.end.take_further(looked).map(|it| it.0),
                Some(ledger) => self.take_with(ledger, &mut at.end, looked, who),
            };
            match taken {
                Ok(value) => return self.took(at, value, who, full),
                Err(Untaken::Nothing) => {
                    at.misses += 1;
                    return Look::Nothing;
                }
                Err(Untaken::Closed) => return self.take_back(at, who, full),
                Err(Untaken::Again) => at = at.pause(turn), // (so no sender waits for the seat)
            }
            turn += 1;
            looked = Looked::default();
        }
    }

    /// Counts a value as taken.
    fn took(&self, mut at: At<'_, Outlet<T>>, value: T, who: u64, full: &Waiters) -> Look<T> {
        if at.pass() {
            self.go_on(at, who, full);
        }
        Look::Took(value)
    }

    /// Does what there is to do after a take, besides counting it: to say that there is room, or to tidy up.
    #[inline]
    pub(crate) fn go_on(&self, mut at: At<'_, Outlet<T>>, who: u64, full: &Waiters) {
        let (count, is_bounded) = (at.count(), self.plan.bound.is_some());
        at.go_on(self.plain_takes(count, who));
        if is_bounded {
            self.taken.0.fetch_add(1, SeqCst);
        }
        drop(at);
        if until_tidy(count, who) == TIDY {
            self.tidy();
        }
        if is_bounded {
            full.wake_one();
        }
    }

    /// Takes what a job gave back, after all is taken that was sent before the row was closed.
    #[cold]
    fn take_back(&self, at: At<'_, Outlet<T>>, who: u64, full: &Waiters) -> Look<T> {
        let back = lock(&self.back).pop_front();
        back.map_or(Look::Nothing, |value| self.took(at, value, who, full))
    }

    /// Takes a value with an audit. The takes are one after the other, so the book has their order.
    #[cold]
    fn take_with(
        &self,
        ledger: &Ledger<T>,
        end: &mut Outlet<T>,
        looked: Looked,
        who: u64,
    ) -> Result<T, Untaken> {
        let book = ledger.open();
        let (value, sender) = match end.take_further(looked) {
            Err(Untaken::Closed) => {
                let back = lock(&self.back).pop_front();
                (back.ok_or(Untaken::Nothing)?, GIVEN_BACK)
            }
            taken => taken?,
        };
        book.write(sender, who);
        Ok(value)
    }

    /// Replaces the ends that did nothing since this was last done. If there are many ends, that is not done each time.
    #[cold]
    fn tidy(&self) {
        let mut standing = lock(&self.standing);
        standing.due += 1;
        if standing.due * TIDY < standing.desks.len() + standing.seats.len() {
            return;
        }
        standing.due = 0;
        let mut home = lock(&self.home);
        let Home { inlet, outlet } = &mut *home;
        let desks = standing.desks.iter().chain([&self.lane]);
        desks.for_each(|it| drop(it.tidy(|| inlet.another())));
        let seats = standing.seats.iter();
        seats.for_each(|it| drop(it.tidy(|| outlet.another())));
    }

    /// How many values wait. All ends stand still at that moment.
    pub(crate) fn len(&self) -> usize {
        let lane = self.lane.hold(); // (before the lock, as a sender that finds no room)
        let Standing { desks, seats, .. } = &*lock(&self.standing);
        let (senders, receivers) = (desks.hold(), seats.hold());
        let sent = desks.count(&senders) + lane.count();
        let waiting = sent.saturating_sub(seats.count(&receivers));
        usize::try_from(waiting).unwrap_or(usize::MAX)
    }

    /// Whether a sender finds no room, as far as can be seen without a latch.
    pub(crate) fn seems_full(&self) -> bool {
        let sent = self.sent.0.count.load(Acquire);
        let waiting = sent.saturating_sub(self.taken.0.load(SeqCst));
        self.plan.bound.is_some_and(|bound| waiting >= bound as u64)
    }

    pub(crate) fn close(&self, to: State) -> bool {
        let mut home = lock(&self.home);
        home.inlet.close();
        self.status.advance(to)
    }

    /// Drops what is left, after the row was closed and all receivers are gone.
    pub(crate) fn end(&self) {
        // (no receiver will tidy up any more, and an end that stays would keep all segments behind it)
        let standing = lock(&self.standing);
        for desk in standing.desks.iter().chain([&self.lane]) {
            (0..2).for_each(|_| drop(desk.tidy(|| lock(&self.home).inlet.another())));
        }
        drop(standing);
        let mut back = mem::take(&mut *lock(&self.back)).into_iter();
        let next = || {
            let in_row = lock(&self.home).outlet.take_left();
            in_row.or_else(|| back.next().map(|it| (it, GIVEN_BACK)))
        };
        // (under no lock, since a value may have ends of this channel)
        if let Some(ledger) = &self.plan.audit {
            ledger.close(iter::from_fn(next).collect());
        } else {
            let mut panics = Panics::default();
            panics.drop_each(iter::from_fn(next).map(|it| it.0));
            panics.resume();
        }
    }
}
