//! Whether a history is one of a queue: a search for one order of its calls in which each takes place at one moment between
//! its begin and its end, and the queue gives each answer.
use super::{Answer, Call, Event, How, Plan};
use std::collections::{HashSet, VecDeque};

/// The queue between two calls.
#[derive(Clone, PartialEq, Eq, Hash)]
struct Queue {
    values: VecDeque<u8>,
    bound: usize,
    senders: usize,
    receivers: usize,
    is_closed: bool,
    /// Values that futures got which are dropped later, by the numbers of these receives.
    held: Vec<(usize, u8)>,
}

impl Queue {
    /// Whether a send gets its value back.
    fn refuses(&self) -> bool {
        self.is_closed || self.receivers == 0
    }

    /// Whether nothing more is sent.
    fn has_ended(&self) -> bool {
        self.is_closed || self.senders == 0
    }

    /// The queue after a call, if it gives this answer. It may be that a value comes back, so that no receiver finds the end.
    fn after(&self, call: Call, answer: Answer, may_come: bool) -> Option<Queue> {
        let mut next = self.clone();
        let (is_full, is_empty) = (self.values.len() >= self.bound, self.values.is_empty());
        let is_right = match (call, answer) {
            (Call::Send { value, .. }, Answer::Done) => {
                next.values.push_back(value);
                !self.refuses() && !is_full
            }
            (Call::Send { how, .. }, Answer::NotNow) => {
                how != How::Wait && !self.refuses() && is_full
            }
            (Call::Send { .. }, Answer::Over) => self.refuses(),
            (Call::Receive { .. }, Answer::Took(value)) => next.values.pop_front() == Some(value),
            (Call::Receive { how, .. }, Answer::NotNow) => {
                how != How::Wait && is_empty && (may_come || !self.has_ended())
            }
            (Call::Receive { .. }, Answer::Over) => {
                is_empty && self.held.is_empty() && self.has_ended()
            }
            (_, Answer::Done) => next.change(call),
            _ => false,
        };
        is_right.then_some(next)
    }

    /// Does a call that concerns ends. Returns whether it is one.
    fn change(&mut self, call: Call) -> bool {
        match call {
            Call::Close => self.is_closed = true,
            Call::CloneSender => self.senders += 1,
            Call::CloneReceiver => self.receivers += 1,
            Call::DropSender => self.senders -= 1,
            Call::DropReceiver => self.receivers -= 1,
            _ => return false,
        }
        if self.receivers == 0 {
            self.values.clear(); // (what is left is dropped with the last receiver)
        }
        true
    }

    /// The queue after the drop of a future that had a value, if this receive is one. The next receiver gets the value.
    fn after_drop(&self, receive: usize) -> Option<Queue> {
        let at = self.held.iter().position(|it| it.0 == receive)?;
        let mut next = self.clone();
        let (_, value) = next.held.remove(at);
        next.values.push_back(value);
        Some(next)
    }

    /// The queue after a future of this number, which is dropped later, has got what another one left.
    fn after_hold(&self, receive: usize) -> Option<Queue> {
        let mut next = self.clone();
        let value = next.values.pop_front()?;
        next.held.push((receive, value));
        self.held.iter().all(|it| it.0 != receive).then_some(next)
    }

    /// The queue after a channel of no capacity has handed the value of this send over in this receive, which has this number.
    fn after_meeting(&self, send: &Event, receive: &Event, number: usize) -> Option<Queue> {
        let (Call::Send { how, value, .. }, Call::Receive { how: other, .. }) =
            (send.call, receive.call)
        else {
            return None;
        };
        let mut next = self.clone();
        // (a future that is dropped may have given its value, or may have got it)
        let gives = send.answer == Answer::Done || (how, send.answer) == DROPPED;
        let is_held = (other, receive.answer) == DROPPED;
        let is_first = self.held.iter().all(|it| it.0 != number);
        if is_held {
            next.held.push((number, value));
        }
        let takes = is_held || receive.answer == Answer::Took(value);
        let one_waits = how != How::Now || other != How::Now;
        let is_right = gives && takes && is_first && self.values.is_empty();
        (is_right && one_waits && !self.refuses()).then_some(next)
    }
}

/// A future that was not ready, and was dropped.
const DROPPED: (How, Answer) = (How::Polled, Answer::NotNow);

/// Searches the orders that go on with the calls that are not in `done`.
struct Search<'a> {
    events: &'a [Event],
    seen: HashSet<(u64, Queue)>,
}

impl Search<'_> {
    fn succeeds(&mut self, done: u64, queue: &Queue) -> bool {
        let open = (0..self.events.len()).filter(|it| done & 1 << it == 0);
        let Some(first_end) = open.clone().map(|it| self.events[it].ended).min() else {
            return true;
        };
        if !self.seen.insert((done, queue.clone())) {
            return false;
        }
        // (a call may be next if no other one that is open ended before it began)
        let next: Vec<_> = open
            .filter(|it| self.events[*it].began < first_end)
            .collect();
        next.iter().any(|it| {
            let event = self.events[*it];
            let is_held = queue.held.iter().any(|held| held.0 == *it);
            let after = match event.answer {
                Answer::Count(count) => self.counts(&event, count, queue).then(|| queue.clone()),
                _ if is_held => queue.after_drop(*it),
                answer => queue.after(event.call, answer, self.may_come(&event, queue)),
            };
            after.is_some_and(|queue| self.succeeds(done | 1 << it, &queue))
        }) || (queue.bound == 0
            && (self.meets(done, queue, &next) || self.holds(done, queue, &next)))
    }

    /// Goes on with a future that gets what another one left.
    fn holds(&mut self, done: u64, queue: &Queue, next: &[usize]) -> bool {
        next.iter().any(|it| {
            let event = &self.events[*it];
            let is_dropped =
                matches!(event.call, Call::Receive { how, .. } if (how, event.answer) == DROPPED);
            let after = is_dropped.then(|| queue.after_hold(*it)).flatten();
            after.is_some_and(|queue| self.succeeds(done, &queue))
        })
    }

    /// Whether this is what the queue has. A value may count while its receive is under way.
    fn counts(&self, event: &Event, count: usize, queue: &Queue) -> bool {
        let there = queue.values.len();
        let taken = self.beside(event, |it| matches!(it.answer, Answer::Took(_)));
        (there..=there + taken).contains(&count)
    }

    /// Whether a value may come back. Without capacity a future has it, and may be dropped.
    fn may_come(&self, event: &Event, queue: &Queue) -> bool {
        let polled = |it: &Event| {
            matches!(
                it.call,
                Call::Receive {
                    how: How::Polled,
                    ..
                }
            )
        };
        queue.bound == 0 && self.beside(event, polled) > 0
    }

    /// How many others of this kind are under way during a call.
    fn beside(&self, event: &Event, is_one: impl Fn(&Event) -> bool) -> usize {
        let others = self.events.iter().filter(|it| it.began != event.began);
        let beside = others.filter(|it| it.began < event.ended && event.began < it.ended);
        beside.filter(|it| is_one(it)).count()
    }

    /// Goes on with a send and a receive at once.
    fn meets(&mut self, done: u64, queue: &Queue, next: &[usize]) -> bool {
        let pairs = next
            .iter()
            .flat_map(|one| next.iter().map(move |two| (*one, *two)));
        pairs.into_iter().any(|(one, two)| {
            let receive = &self.events[two];
            let after = queue.after_meeting(&self.events[one], receive, two);
            after.is_some_and(|after| {
                // (a future that got a value is open until it is dropped)
                let is_open = after.held.len() > queue.held.len();
                let ended = u64::from(!is_open) << two;
                self.succeeds(done | 1 << one | ended, &after)
            })
        })
    }
}

/// Whether there is an order of these events that a queue with so much room, senders and receivers allows.
pub fn is_of_a_queue(events: &[Event], bound: Option<usize>, ends: (usize, usize)) -> bool {
    let queue = Queue {
        values: VecDeque::new(),
        bound: bound.unwrap_or(usize::MAX),
        senders: ends.0,
        receivers: ends.1,
        is_closed: false,
        held: Vec::new(),
    };
    let seen = HashSet::new();
    Search { events, seen }.succeeds(0, &queue)
}

/// Whether the history of a plan is one of a queue.
pub fn judge(events: &[Event], plan: &Plan) -> bool {
    is_of_a_queue(events, plan.bound, plan.ends())
}

/// The history in lines, in the order of the begins.
pub fn told(events: &[Event]) -> String {
    let mut events = events.to_vec();
    events.sort_by_key(|it| it.began);
    let zero = events.first().map_or(0, |it| it.began);
    let line = |it: &Event| {
        let (began, ended) = (it.began - zero, it.ended - zero);
        format!(
            "{began} to {ended}, thread {}: {:?}: {:?}\n",
            it.thread, it.call, it.answer
        )
    };
    events.iter().map(line).collect()
}
