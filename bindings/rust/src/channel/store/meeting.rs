//! A channel without room: each value goes from a sender to a receiver, hand to hand. It has no mailbox, but one lock.
//!
//! A sender that finds a receiver waiting *leaves* the value for it, and nobody else gets that. Else it *offers* the value,
//! waits until a receiver takes it, and takes it back if it gives up. A receiver that waits gives up only if nothing is left
//! for it. A future may be dropped all the same: then the next receiver gets what was left for it. It also gets what a job
//! gives back.
use super::{Look, Refused, State, Status};
use crate::channel::audit::{GIVEN_BACK, Ledger};
use crate::channel::system::{Panics, Waiters, lock};
use std::collections::{BTreeMap, VecDeque};
use std::mem;
use std::sync::{Arc, Mutex};

pub(crate) struct Meeting<T> {
    status: Status,
    table: Mutex<Table<T>>,
    audit: Option<Arc<Ledger<T>>>,
}

/// A value, with the number of its sender.
type Sent<T> = (T, u64);

/// All is by the numbers of tickets.
struct Table<T> {
    /// The number of the next ticket.
    next: u64,
    /// Values whose senders wait.
    offers: BTreeMap<u64, (Sent<T>, Arc<Waiters>)>,
    /// Receivers that wait, and for which nothing is left. Of each it is said whether it is a task, which may go.
    waiting: BTreeMap<u64, (Arc<Waiters>, bool)>,
    /// What was left for receivers that wait.
    left: BTreeMap<u64, Sent<T>>,
    /// How much of that is for tasks.
    left_for_tasks: usize,
    /// What is for the next receiver. (The senders do not wait.)
    spare: VecDeque<Sent<T>>,
}

/// What a sender has that offers a value, and a receiver that waits.
pub(crate) struct Ticket {
    number: u64,
    is_task: bool,
    /// It alone waits here.
    pub(crate) bell: Arc<Waiters>,
}

impl<T> Table<T> {
    fn ticket(&mut self, is_task: bool) -> Ticket {
        self.next += 1;
        Ticket {
            number: self.next,
            is_task,
            bell: Arc::new(Waiters::new()),
        }
    }

    /// Leaves a value for the first receiver that waits for one, and returns where that waits.
    fn leave(&mut self, sent: Sent<T>) -> Result<Arc<Waiters>, Sent<T>> {
        let Some((number, (bell, is_task))) = self.waiting.pop_first() else {
            return Err(sent);
        };
        self.left.insert(number, sent);
        self.left_for_tasks += usize::from(is_task);
        Ok(bell)
    }

    /// The same, or else keeps it for the next one.
    fn keep(&mut self, sent: Sent<T>) -> Option<Arc<Waiters>> {
        self.leave(sent)
            .map_err(|sent| self.spare.push_back(sent))
            .ok()
    }

    /// Takes what was left for a receiver.
    fn take_left(&mut self, ticket: &Ticket) -> Option<Sent<T>> {
        let left = self.left.remove(&ticket.number)?;
        self.left_for_tasks -= usize::from(ticket.is_task);
        Some(left)
    }

    /// Takes a value that anybody may take, and where its sender waits, if it does.
    fn take_free(&mut self, is_open: bool) -> Option<(Sent<T>, Option<Arc<Waiters>>)> {
        if let Some(sent) = self.spare.pop_front() {
            return Some((sent, None));
        }
        // (after a close the senders take back what they offer)
        let (_, (sent, bell)) = is_open.then(|| self.offers.pop_first()).flatten()?;
        Some((sent, Some(bell)))
    }
}

impl<T> Meeting<T> {
    pub(crate) fn new(audit: Option<Arc<Ledger<T>>>) -> Meeting<T> {
        let table = Mutex::new(Table {
            next: 0,
            offers: BTreeMap::new(),
            waiting: BTreeMap::new(),
            left: BTreeMap::new(),
            left_for_tasks: 0,
            spare: VecDeque::new(),
        });
        let status = Status::open();
        Meeting {
            status,
            table,
            audit,
        }
    }

    /// What is left for a receiver that waits does not count, since it has it.
    pub(crate) fn len(&self) -> usize {
        lock(&self.table).spare.len()
    }

    /// Leaves a value for a receiver, if one waits. What a job gives back is kept for the next one.
    pub(crate) fn put(&self, value: T, who: u64) -> Result<(), Refused<T>> {
        let mut table = lock(&self.table);
        if !self.status.admits(who) {
            return Err(Refused::Closed(value));
        }
        let bell = if who == GIVEN_BACK {
            table.keep((value, who))
        } else {
            let bell = table.leave((value, who));
            Some(bell.map_err(|(value, _)| Refused::Full(value))?)
        };
        drop(table);
        ring(bell);
        Ok(())
    }

    /// Offers a value, unless a receiver waits for it by now.
    pub(crate) fn offer(&self, value: T, who: u64) -> Ticket {
        let mut table = lock(&self.table);
        let ticket = table.ticket(false);
        let sent = (value, who);
        let left = if self.is_open() {
            table.leave(sent)
        } else {
            Err(sent)
        };
        let bell = left.map_err(|sent| {
            let offer = (sent, Arc::clone(&ticket.bell));
            table.offers.insert(ticket.number, offer);
        });
        drop(table);
        ring(bell);
        ticket
    }

    /// What became of an offer, if it is decided.
    pub(crate) fn outcome(&self, offer: &Ticket) -> Option<Result<(), Refused<T>>> {
        let mut table = lock(&self.table);
        if self.is_open() && table.offers.contains_key(&offer.number) {
            return None;
        }
        let back = table.offers.remove(&offer.number);
        Some(back.map_or(Ok(()), |((value, _), _)| Err(Refused::Closed(value))))
    }

    /// Takes the value of an offer back, unless a receiver has it.
    pub(crate) fn take_back(&self, offer: &Ticket) -> Option<T> {
        let back = lock(&self.table).offers.remove(&offer.number);
        back.map(|((value, _), _)| value)
    }

    /// Takes what was left for this ticket, or what anybody may take.
    pub(crate) fn take(&self, who: u64, ticket: Option<&Ticket>) -> Look<T> {
        let mut table = lock(&self.table);
        let left = ticket.and_then(|it| table.take_left(it));
        let taken = left
            .map(|it| (it, None))
            .or_else(|| table.take_free(self.is_open()));
        let Some(((value, from), bell)) = taken else {
            return Look::Nothing;
        };
        if let Some(ticket) = ticket {
            table.waiting.remove(&ticket.number);
        }
        drop(table);
        ring(bell);
        self.count(from, Some(who));
        Look::Took(value)
    }

    fn count(&self, sender: u64, receiver: Option<u64>) {
        if let Some(audit) = &self.audit {
            audit.count(sender, receiver);
        }
    }

    /// A receiver begins to wait.
    pub(crate) fn arrive(&self, is_task: bool) -> Ticket {
        let mut table = lock(&self.table);
        let ticket = table.ticket(is_task);
        let bell = Arc::clone(&ticket.bell);
        table.waiting.insert(ticket.number, (bell, is_task));
        // (else a later value could be left for it before it looks)
        if let Some(sent) = table.spare.pop_front() {
            drop(table.leave(sent));
        }
        ticket
    }

    /// A receiver gives up, unless a value is left for it. Returns whether it did.
    pub(crate) fn give_up(&self, ticket: &Ticket) -> bool {
        let mut table = lock(&self.table);
        table.waiting.remove(&ticket.number);
        !table.left.contains_key(&ticket.number)
    }

    /// A receiver goes.
    pub(crate) fn abandon(&self, ticket: &Ticket) {
        let mut table = lock(&self.table);
        table.waiting.remove(&ticket.number);
        let left = table.take_left(ticket);
        let bell = left.and_then(|sent| table.keep(sent));
        drop(table);
        ring(bell);
    }

    /// Whether nothing is left for tasks. (If one of them goes, that is for others.)
    pub(crate) fn is_settled(&self) -> bool {
        lock(&self.table).left_for_tasks == 0
    }

    /// Lets all receivers look that wait.
    pub(crate) fn wake_receivers(&self) {
        let table = lock(&self.table);
        let bells = table.waiting.values().map(|it| Arc::clone(&it.0));
        let bells: Vec<_> = bells.collect();
        drop(table);
        ring(bells);
    }

    pub(crate) fn state(&self) -> State {
        self.status.state()
    }

    fn is_open(&self) -> bool {
        self.state() == State::Open
    }

    pub(crate) fn close(&self, to: State) -> bool {
        let table = lock(&self.table);
        let was_open = self.status.advance(to);
        let bells = table.offers.values().map(|it| Arc::clone(&it.1));
        let bells: Vec<_> = bells.collect();
        drop(table);
        ring(bells);
        was_open
    }

    pub(crate) fn end(&self) {
        let spare = mem::take(&mut lock(&self.table).spare);
        let mut panics = Panics::default();
        panics.drop_each(spare.into_iter().map(|(value, from)| {
            self.count(from, None);
            value
        }));
        panics.resume();
    }
}

/// (under no lock, since it may call a waker)
fn ring(bells: impl IntoIterator<Item = Arc<Waiters>>) {
    bells.into_iter().for_each(|it| it.wake_one());
}
