//! A queue under one lock, as a channel: a right one, and wrong ones.
use super::{Answer, Channel, Ends, How};
use std::collections::VecDeque;
use std::sync::{Arc, Condvar, Mutex, MutexGuard};
use std::time::{Duration, Instant};

/// What a wrong queue does in one of three calls, if it can.
#[derive(Clone, Copy, PartialEq, Eq, Debug)]
pub enum Fault {
    /// A value comes before one that was sent before.
    Overtakes,
    /// A value that was sent does not come.
    Loses,
    /// A value comes twice.
    Repeats,
    /// A receiver finds nothing, though a value is there.
    FalselyEmpty,
    /// A receiver waits for its time, and then finds nothing, though a value is there.
    FalselyLate,
    /// A sender finds no room, though there is some.
    FalselyFull,
    /// There are more values than the bound allows.
    PassesBound,
    /// A receiver finds the end, though a value is there.
    EndsBeforeTheLastValue,
    /// A receiver finds the end, though a sender is there.
    EndsBeforeTheLastSender,
    /// A sender gets its value back, though a receiver is there.
    Refuses,
    /// A value is sent after the channel was closed.
    SendsAfterTheClose,
    /// A receiver never finds the end, though all senders are gone.
    NeverEnds,
    /// A sender that gives up leaves its value in the channel.
    SendsAndGivesUp,
    /// What is left stays when the last receiver goes.
    KeepsWhatIsLeft,
    /// The count is one too small, though no call is under way.
    Miscounts,
}

pub struct Model(pub Option<Fault>);

impl Fault {
    /// Each fault, with a bound with which it can be seen.
    pub fn all() -> impl Iterator<Item = (Fault, Option<usize>)> {
        use Fault::{
            EndsBeforeTheLastSender, EndsBeforeTheLastValue, FalselyEmpty, FalselyFull,
            FalselyLate, KeepsWhatIsLeft, Loses, Miscounts, NeverEnds, Overtakes, PassesBound,
            Refuses, Repeats, SendsAfterTheClose, SendsAndGivesUp,
        };
        let any = [
            Overtakes,
            Loses,
            Repeats,
            FalselyEmpty,
            FalselyLate,
            EndsBeforeTheLastValue,
            EndsBeforeTheLastSender,
            Refuses,
            SendsAfterTheClose,
            NeverEnds,
            KeepsWhatIsLeft,
            Miscounts,
        ];
        let bounded = [FalselyFull, PassesBound, SendsAndGivesUp];
        let any = any.into_iter().map(|it| (it, None));
        any.chain(bounded.map(|it| (it, Some(1))))
    }
}

#[derive(Default)]
struct State {
    values: VecDeque<u8>,
    bound: Option<usize>,
    senders: usize,
    receivers: usize,
    is_closed: bool,
    /// How often a fault could have been shown.
    chances: usize,
}

struct Shared {
    fault: Option<Fault>,
    state: Mutex<State>,
    changed: Condvar,
}

impl Shared {
    fn hold(&self) -> MutexGuard<'_, State> {
        self.state.lock().unwrap()
    }

    /// Whether the queue shows its fault now, if it is this one.
    fn shows(&self, state: &mut State, fault: Fault) -> bool {
        state.chances += usize::from(self.fault == Some(fault));
        self.fault == Some(fault) && state.chances % 3 == 1
    }

    /// Tries until it succeeds or the call waits no longer.
    fn wait(&self, how: How, mut attempt: impl FnMut(&mut State) -> Answer) -> Answer {
        let until = Instant::now() + Duration::from_micros(50);
        let mut state = self.hold();
        loop {
            let answer = attempt(&mut state);
            let now = Instant::now();
            let is_timed_out = how == How::Timed && now >= until;
            if answer != Answer::NotNow || is_timed_out || matches!(how, How::Now | How::Polled) {
                drop(state);
                self.changed.notify_all();
                return answer;
            }
            let limit = if how == How::Timed {
                until - now
            } else {
                Duration::from_secs(60)
            };
            state = self.changed.wait_timeout(state, limit).unwrap().0;
        }
    }

    fn send(&self, how: How, value: u8) -> Answer {
        self.wait(how, |state| {
            let is_closed = state.is_closed && !self.shows(state, Fault::SendsAfterTheClose);
            let (count, bound) = (state.values.len(), state.bound.unwrap_or(usize::MAX));
            if is_closed || state.receivers == 0 || self.shows(state, Fault::Refuses) {
                return Answer::Over;
            }
            let is_passed = count == bound && self.shows(state, Fault::PassesBound);
            if count >= bound && !is_passed {
                if how != How::Wait && self.shows(state, Fault::SendsAndGivesUp) {
                    state.values.push_back(value);
                }
                return Answer::NotNow;
            }
            let is_short = how == How::Now && state.bound.is_some();
            if is_short && self.shows(state, Fault::FalselyFull) {
                return Answer::NotNow;
            }
            if count > 0 && self.shows(state, Fault::Overtakes) {
                state.values.push_front(value);
            } else if !self.shows(state, Fault::Loses) {
                state.values.push_back(value);
            }
            Answer::Done
        })
    }

    fn receive(&self, how: How) -> Answer {
        if how == How::Timed {
            let mut state = self.hold();
            if !state.values.is_empty() && self.shows(&mut state, Fault::FalselyLate) {
                return Answer::NotNow;
            }
        }
        self.wait(how, |state| {
            let is_first_over = state.is_closed || state.senders == 0;
            let is_there = !state.values.is_empty();
            let ends = [
                is_there && self.shows(state, Fault::EndsBeforeTheLastValue),
                !is_there && !is_first_over && self.shows(state, Fault::EndsBeforeTheLastSender),
                !is_there && is_first_over && !self.never_ends(state, how),
            ];
            let is_missed = how == How::Now && is_there && self.shows(state, Fault::FalselyEmpty);
            if ends.contains(&true) {
                Answer::Over
            } else if is_missed {
                Answer::NotNow
            } else if is_there && self.shows(state, Fault::Repeats) {
                Answer::Took(state.values[0])
            } else {
                state
                    .values
                    .pop_front()
                    .map_or(Answer::NotNow, Answer::Took)
            }
        })
    }

    fn never_ends(&self, state: &mut State, how: How) -> bool {
        how != How::Wait && self.shows(state, Fault::NeverEnds)
    }

    fn change(&self, work: impl FnOnce(&mut State)) {
        let mut state = self.hold();
        work(&mut state);
        if state.receivers == 0 && self.fault != Some(Fault::KeepsWhatIsLeft) {
            state.values.clear();
        }
        drop(state);
        self.changed.notify_all();
    }
}

pub struct Sender(Arc<Shared>);
pub struct Receiver(Arc<Shared>);

impl Clone for Sender {
    fn clone(&self) -> Sender {
        self.0.change(|it| it.senders += 1);
        Sender(Arc::clone(&self.0))
    }
}

impl Clone for Receiver {
    fn clone(&self) -> Receiver {
        self.0.change(|it| it.receivers += 1);
        Receiver(Arc::clone(&self.0))
    }
}

impl Drop for Sender {
    fn drop(&mut self) {
        self.0.change(|it| it.senders -= 1);
    }
}

impl Drop for Receiver {
    fn drop(&mut self) {
        self.0.change(|it| it.receivers -= 1);
    }
}

impl Channel for Model {
    type Sender = Sender;
    type Receiver = Receiver;

    fn make(&self, bound: Option<usize>) -> (Sender, Receiver) {
        let state = State {
            // (for want of a meeting, it has room for one value)
            bound: bound.map(|it| it.max(1)),
            senders: 1,
            receivers: 1,
            ..State::default()
        };
        let shared = Arc::new(Shared {
            fault: self.0,
            state: Mutex::new(state),
            changed: Condvar::new(),
        });
        (Sender(Arc::clone(&shared)), Receiver(shared))
    }

    fn send(sender: &Sender, how: How, value: u8) -> Answer {
        sender.0.send(how, value)
    }

    fn receive(receiver: &Receiver, how: How) -> Answer {
        receiver.0.receive(how)
    }

    fn len(ends: &Ends<Model>) -> usize {
        let shared = shared(ends);
        let state = &mut *shared.hold();
        let count = state.values.len();
        count - usize::from(count > 0 && shared.shows(state, Fault::Miscounts))
    }

    fn close(ends: &Ends<Model>) {
        shared(ends).change(|it| it.is_closed = true);
    }
}

fn shared(ends: &Ends<Model>) -> &Shared {
    let sender = ends.senders.first().map(|it| &*it.0);
    sender.unwrap_or_else(|| &*ends.receivers[0].0)
}
