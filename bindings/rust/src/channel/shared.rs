//! What all ends of a channel share.
use super::store::{Chair, Look, Meeting, Plan, Refused, Stand, State, Store, Taking, Ticket};
use super::system::{Line, Waiters};
use std::sync::atomic::{AtomicU64, AtomicUsize, Ordering::SeqCst};

pub(super) struct Shared<T> {
    pub(super) store: Store<T>,
    pub(super) senders: Ends,
    pub(super) receivers: Ends,
    jobs: Line<Jobs>,
    /// Receivers that wait for a value.
    pub(super) empty: Waiters,
    /// Senders that wait for room.
    pub(super) full: Waiters,
}

/// The ends of one side.
#[derive(Default)]
pub(super) struct Ends {
    there: AtomicUsize,
    /// How many were ever made.
    made: AtomicU64,
}

impl Ends {
    /// Adds an end, and returns its number.
    pub(super) fn add(&self) -> u64 {
        self.there.fetch_add(1, SeqCst);
        self.made.fetch_add(1, SeqCst)
    }

    /// Adds an end if there is one already, and returns its number.
    pub(super) fn add_to_others(&self) -> Option<u64> {
        let more = |there: usize| (there > 0).then_some(there + 1);
        let added = self.there.fetch_update(SeqCst, SeqCst, more);
        added.ok().map(|_| self.made.fetch_add(1, SeqCst))
    }

    pub(super) fn count(&self) -> usize {
        self.there.load(SeqCst)
    }

    /// Returns whether it was the last one.
    fn remove(&self) -> bool {
        self.there.fetch_sub(1, SeqCst) == 1
    }
}

/// The jobs that are open or about to be begun, in the lower half. The upper half counts those begun, and turns over.
struct Jobs(AtomicUsize);

const BEGUN: usize = 1 << 32;

impl Jobs {
    /// What there was before it began.
    fn begin(&self) -> usize {
        self.0.fetch_add(BEGUN + 1, SeqCst)
    }

    /// What there was before it ended.
    fn end(&self) -> usize {
        self.0.fetch_sub(1, SeqCst)
    }

    fn load(&self) -> usize {
        self.0.load(SeqCst)
    }
}

impl<T> Shared<T> {
    pub(super) fn new(plan: Plan<T>) -> Shared<T> {
        Shared {
            store: Store::new(plan),
            senders: Ends::default(),
            receivers: Ends::default(),
            jobs: Line(Jobs(AtomicUsize::new(0))),
            empty: Waiters::new(),
            full: Waiters::new(),
        }
    }

    /// The last one lets all receivers look whether anything is left.
    pub(super) fn drop_sender(&self) {
        if self.senders.remove() {
            self.wake_receivers();
        }
    }

    /// The last one drops what is left, and lets all senders look.
    pub(super) fn drop_receiver(&self) {
        if self.receivers.remove() {
            self.store.close(State::Left);
            self.full.wake_all();
            self.store.end();
        }
    }

    /// Lets no sender put a value after this. Returns whether one could before.
    pub(super) fn close(&self) -> bool {
        let was_open = self.store.close(State::Closed) && self.senders.count() != 0;
        self.full.wake_all();
        self.wake_receivers();
        was_open
    }

    /// Whether no sender can put a value.
    pub(super) fn is_closed(&self) -> bool {
        !self.has_senders()
    }

    fn has_senders(&self) -> bool {
        self.senders.count() != 0 && self.store.state() == State::Open
    }

    /// Whether something may come that no job gives back.
    fn may_come(&self) -> bool {
        self.has_senders() || !self.store.meeting().is_none_or(Meeting::is_settled)
    }

    /// Lets all receivers look that wait.
    fn wake_receivers(&self) {
        self.empty.wake_all();
        if let Some(meeting) = self.store.meeting() {
            meeting.wake_receivers();
        }
    }

    /// Puts a value, of a sender that has no desk or of a job, and wakes a receiver.
    #[inline]
    pub(super) fn put(
        &self,
        stand: Option<&Stand<T>>,
        value: T,
        who: u64,
    ) -> Result<(), Refused<T>> {
        if let Err(why) = self.store.put(stand, value, who) {
            if let Refused::NoMemory(_) = why {
                self.full.wake_one(); // (there is room, perhaps for another one)
            }
            return Err(why);
        }
        self.empty.wake_one();
        Ok(())
    }

    /// Takes a value, and wakes a sender that waits for room.
    #[inline]
    fn look(&self, chair: &Chair<T>, who: u64, ticket: Option<&Ticket>) -> Look<T> {
        let look = self.store.take(chair, who, ticket, &self.full);
        if matches!(look, Look::Took(_)) && ticket.is_some() && !self.has_senders() {
            self.wake_receivers(); // (perhaps nothing is left now)
        }
        look
    }

    /// Takes a value, or finds that there is none. It may be that nothing comes. A receiver that has a seat began there.
    #[inline]
    pub(super) fn take(
        &self,
        taking: Option<Taking<'_, T>>,
        chair: &Chair<T>,
        who: u64,
        ticket: Option<&Ticket>,
    ) -> Look<T> {
        let look = match taking {
            Some(taking) => self.store.row().take_further(taking, who, &self.full),
            None => self.look(chair, who, ticket),
        };
        match look {
            Look::Nothing => self.look_again(chair, who, ticket),
            look => look,
        }
    }

    /// What `take` does after a look that found nothing. If nothing more may come, it looks once more. The answer is
    /// `Over` if that look finds nothing either, and no job began or ended meanwhile.
    #[cold]
    fn look_again(&self, chair: &Chair<T>, who: u64, ticket: Option<&Ticket>) -> Look<T> {
        let jobs = self.jobs.0.load();
        if self.may_come() || jobs % BEGUN != 0 {
            return Look::Nothing;
        }
        match self.look(chair, who, ticket) {
            Look::Nothing if self.jobs.0.load() == jobs => Look::Over,
            look => look,
        }
    }

    /// What `take` does for a job, which is open if a value is returned. The job counts as open during the look. So
    /// nobody else finds that nothing comes, while this value may come back.
    pub(super) fn take_job(&self, chair: &Chair<T>, who: u64, ticket: Option<&Ticket>) -> Look<T> {
        let may_come = self.may_come();
        let before = self.jobs.0.begin();
        let look = self.look(chair, who, ticket);
        if let Look::Took(_) = look {
            return look;
        }
        let during = self.end_job();
        let is_alone = before % BEGUN == 0 && during == before.wrapping_add(BEGUN + 1);
        match look {
            Look::Nothing if !may_come && is_alone => Look::Over,
            look => look,
        }
    }

    /// Ends a job, and returns what there was before. The last one lets all receivers look whether anything comes.
    pub(super) fn end_job(&self) -> usize {
        let jobs = self.jobs.0.end();
        if jobs % BEGUN == 1 && !self.has_senders() {
            self.wake_receivers();
        }
        jobs
    }

    /// A receiver begins to wait. At a meeting it gets a ticket. Without one the two calls below do nothing.
    pub(super) fn arrive(&self, is_task: bool) -> Option<Ticket> {
        let meeting = self.store.meeting();
        meeting.map(|it| it.arrive(is_task))
    }

    /// A receiver gives up, unless a value is left for it. Returns whether it did.
    pub(super) fn give_up(&self, ticket: Option<&Ticket>) -> bool {
        let meeting = self.store.meeting().zip(ticket);
        meeting.is_none_or(|(meeting, ticket)| meeting.give_up(ticket))
    }

    /// A receiver goes.
    pub(super) fn abandon(&self, ticket: Option<&Ticket>) {
        if let Some((meeting, ticket)) = self.store.meeting().zip(ticket) {
            meeting.abandon(ticket);
        }
    }

    pub(super) fn len(&self) -> usize {
        if self.store.state() == State::Left {
            return 0;
        }
        self.store.len()
    }

    pub(super) fn is_full(&self) -> bool {
        self.store.bound().is_some_and(|bound| self.len() >= bound)
    }
}
