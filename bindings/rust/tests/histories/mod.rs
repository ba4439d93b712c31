//! Random calls of a channel in a few threads, recorded with the moments at which each began and ended.
pub mod model;
pub mod search;

use std::hint::spin_loop;
use std::sync::Arc;
use std::sync::atomic::{AtomicU64, AtomicUsize, Ordering::SeqCst};
use std::sync::mpsc::{Receiver, RecvTimeoutError, Sender, channel};
use std::thread;
use std::time::Duration;

/// How a call waits.
#[derive(Clone, Copy, PartialEq, Eq, Debug)]
pub enum How {
    /// Until it succeeds, or the channel is over.
    Wait,
    /// Not at all.
    Now,
    /// For some microseconds.
    Timed,
    /// Not at all: a future is polled once and dropped.
    Polled,
}

/// A call. `end` says by which of the thread's ends of that side.
#[derive(Clone, Copy, PartialEq, Eq, Debug)]
pub enum Call {
    Send { how: How, end: usize, value: u8 },
    Receive { how: How, end: usize },
    Len,
    Close,
    CloneSender,
    CloneReceiver,
    DropSender,
    DropReceiver,
}

#[derive(Clone, Copy, PartialEq, Eq, Debug)]
pub enum Answer {
    Done,
    Took(u8),
    /// The channel was full or empty, for as long as the call waits.
    NotNow,
    /// The other side is gone, or the channel was closed.
    Over,
    Count(usize),
}

/// A call that has ended. The moments are numbers of one clock for all threads.
#[derive(Clone, Copy, Debug)]
pub struct Event {
    pub began: u64,
    pub ended: u64,
    pub thread: usize,
    pub call: Call,
    pub answer: Answer,
}

/// A channel of any make.
pub trait Channel: Sized + 'static {
    type Sender: Clone + Send;
    type Receiver: Clone + Send;

    fn make(&self, bound: Option<usize>) -> (Self::Sender, Self::Receiver);
    fn send(sender: &Self::Sender, how: How, value: u8) -> Answer;
    fn receive(receiver: &Self::Receiver, how: How) -> Answer;
    fn len(ends: &Ends<Self>) -> usize;
    fn close(ends: &Ends<Self>);
}

/// The ends of one thread.
pub struct Ends<C: Channel> {
    pub senders: Vec<C::Sender>,
    pub receivers: Vec<C::Receiver>,
}

impl<C: Channel> Ends<C> {
    fn call(&mut self, call: Call) -> Answer {
        match call {
            Call::Send { how, end, value } => return C::send(&self.senders[end], how, value),
            Call::Receive { how, end } => return C::receive(&self.receivers[end], how),
            Call::Len => return Answer::Count(C::len(self)),
            Call::Close => C::close(self),
            Call::CloneSender => self.senders.push(self.senders[0].clone()),
            Call::CloneReceiver => self.receivers.push(self.receivers[0].clone()),
            Call::DropSender => drop(self.senders.pop()),
            Call::DropReceiver => drop(self.receivers.pop()),
        }
        Answer::Done
    }
}

/// A source of numbers that are random enough (xorshift).
#[derive(Clone)]
pub struct Dice(pub u64);

impl Dice {
    pub fn under(&mut self, sides: usize) -> usize {
        self.0 ^= self.0 << 13;
        self.0 ^= self.0 >> 7;
        self.0 ^= self.0 << 17;
        usize::try_from(self.0 % sides as u64).expect("it is less than `sides`")
    }
}

/// What one thread does. It begins with so many ends, and has none at its end.
#[derive(Clone, Debug, Default)]
struct Script {
    senders: usize,
    receivers: usize,
    /// Each call, and for how many turns of a loop the thread waits before it.
    calls: Vec<(Call, usize)>,
}

/// What is done in one history.
#[derive(Debug)]
pub struct Plan {
    pub bound: Option<usize>,
    /// Whether a receiver outlives all threads, and at last takes what is left.
    is_emptied: bool,
    scripts: Vec<Script>,
}

impl Plan {
    /// Three or four threads with 6 to 10 calls in all, and besides a drop of each end.
    pub fn new(bound: Option<usize>, dice: &mut Dice) -> Plan {
        let mut plan = Plan {
            bound,
            is_emptied: dice.under(2) == 0,
            scripts: vec![Script::default(); 3 + dice.under(2)],
        };
        let (mut value, calls) = (0, 6 + dice.under(5));
        let shift = dice.under(plan.scripts.len());
        for thread in 0..plan.scripts.len() {
            let share = (calls + thread) / plan.scripts.len();
            // (there is one thread at least that sends, and one that receives)
            let side = match (thread + shift) % plan.scripts.len() {
                0 => 0,
                1 => 1,
                _ => dice.under(3),
            };
            plan.scripts[thread] = plan.script(side, share, &mut value, dice);
        }
        plan
    }

    fn script(&self, side: usize, calls: usize, value: &mut u8, dice: &mut Dice) -> Script {
        let (mut senders, mut receivers) = (usize::from(side != 1), usize::from(side != 0));
        let mut script = Script {
            senders,
            receivers,
            calls: Vec::new(),
        };
        while script.calls.len() < calls && senders + receivers > 0 {
            let how = [How::Wait, How::Now, How::Timed, How::Polled][dice.under(4)];
            let call = match dice.under(26) {
                0..=9 if senders > 0 => {
                    *value += 1;
                    Call::Send {
                        how: self.sends(how, receivers),
                        end: dice.under(senders),
                        value: *value,
                    }
                }
                10..=19 if receivers > 0 => Call::Receive {
                    // (so nobody waits for a value that only it can send)
                    how: if senders > 0 && how == How::Wait {
                        How::Now
                    } else {
                        how
                    },
                    end: dice.under(receivers),
                },
                20..=21 => Call::Len,
                22 => Call::Close,
                23 if senders > 0 => Call::CloneSender,
                24 if receivers > 0 => Call::CloneReceiver,
                25 if senders > 0 => Call::DropSender,
                25 => Call::DropReceiver,
                _ => continue,
            };
            senders += usize::from(call == Call::CloneSender);
            receivers += usize::from(call == Call::CloneReceiver);
            senders -= usize::from(call == Call::DropSender);
            receivers -= usize::from(call == Call::DropReceiver);
            script.calls.push((call, dice.under(150)));
        }
        let drops = [(Call::DropSender, senders), (Call::DropReceiver, receivers)];
        for (call, count) in drops {
            (0..count).for_each(|_| script.calls.push((call, 0)));
        }
        script
    }

    /// How a thread that has so many receivers sends. It does not wait if the only room may be that which it makes itself.
    fn sends(&self, how: How, receivers: usize) -> How {
        let may_wait = self.bound.is_none() || (receivers == 0 && !self.is_emptied);
        if how == How::Wait && !may_wait {
            How::Timed
        } else {
            how
        }
    }

    /// How many senders and receivers there are at first.
    pub fn ends(&self) -> (usize, usize) {
        let receivers: usize = self.scripts.iter().map(|it| it.receivers).sum();
        let senders = self.scripts.iter().map(|it| it.senders).sum();
        (senders, receivers + usize::from(self.is_emptied))
    }
}

static CLOCK: AtomicU64 = AtomicU64::new(0);

fn record<C: Channel>(ends: &mut Ends<C>, thread: usize, call: Call) -> Event {
    let began = CLOCK.fetch_add(1, SeqCst);
    let answer = ends.call(call);
    let ended = CLOCK.fetch_add(1, SeqCst);
    Event {
        began,
        ended,
        thread,
        call,
        answer,
    }
}

type Job = Box<dyn FnOnce() -> Vec<Event> + Send>;

/// Threads that wait for work, so that a history costs no start of a thread.
pub struct Threads {
    jobs: Vec<Sender<Job>>,
    results: Receiver<Vec<Event>>,
}

impl Threads {
    pub fn start() -> Threads {
        let (to, results) = channel();
        let worker = |_| {
            let (jobs, work) = channel::<Job>();
            let to = to.clone();
            thread::spawn(move || work.iter().try_for_each(|job| to.send(job())));
            jobs
        };
        Threads {
            jobs: (0..4).map(worker).collect(),
            results,
        }
    }

    /// Runs a plan over a new channel, and returns the history.
    ///
    /// # Panics
    /// A call sleeps for ever.
    pub fn run<C: Channel>(&self, channel: &C, plan: &Plan) -> Vec<Event> {
        let (sender, receiver) = channel.make(plan.bound);
        let ends = |script: &Script| Ends::<C> {
            senders: vec![sender.clone(); script.senders],
            receivers: vec![receiver.clone(); script.receivers],
        };
        let all: Vec<_> = plan.scripts.iter().map(ends).collect();
        let mut last: Ends<C> = Ends {
            senders: Vec::new(),
            receivers: Vec::from_iter(plan.is_emptied.then_some(receiver)),
        };
        drop(sender);
        let count = plan.scripts.len();
        let gate = Arc::new(AtomicUsize::new(count));
        for (thread, (script, mut ends)) in plan.scripts.iter().zip(all).enumerate() {
            let (gate, calls) = (Arc::clone(&gate), script.calls.clone());
            let job = Box::new(move || {
                pass(&gate);
                let make = |(call, pause)| {
                    wait_for_turns(pause);
                    record(&mut ends, thread, call)
                };
                calls.into_iter().map(make).collect()
            });
            self.jobs[thread].send(job).expect("no worker has failed");
        }
        let mut events = Vec::new();
        for _ in 0..count {
            match self.results.recv_timeout(Duration::from_secs(20)) {
                Ok(more) => events.extend(more),
                Err(RecvTimeoutError::Timeout) => panic!("a call sleeps for ever: {plan:#?}"),
                Err(RecvTimeoutError::Disconnected) => panic!("a call panics: {plan:#?}"),
            }
        }
        empty(&mut last, count, &mut events);
        events
    }
}

/// Waits until the other threads that the gate counts have come here.
fn pass(gate: &AtomicUsize) {
    gate.fetch_sub(1, SeqCst);
    while gate.load(SeqCst) > 0 {
        wait_for_turns(100);
    }
}

/// Waits for so many turns of a loop. If they are many, other threads may run meanwhile.
fn wait_for_turns(count: usize) {
    (0..count).for_each(|_| spin_loop());
    if count >= 100 {
        thread::yield_now();
    }
}

/// Takes what is left, if there is a receiver.
fn empty<C: Channel>(ends: &mut Ends<C>, thread: usize, events: &mut Vec<Event>) {
    let call = Call::Receive {
        how: How::Now,
        end: 0,
    };
    while !ends.receivers.is_empty() {
        let event = record(ends, thread, call);
        events.push(event);
        if !matches!(event.answer, Answer::Took(_)) {
            break;
        }
    }
}
