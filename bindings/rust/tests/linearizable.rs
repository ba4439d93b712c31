//! Small random runs of the channel in real threads, each judged by a search for one order that a queue allows.
//!
//! `HISTORIES=100000` records so many for each bound.
mod histories;
mod run;

use hazbultra::channel::{Receiver, Sender, bounded, unbounded};
use hazbultra::channel::{RecvTimeoutError, SendTimeoutError, TryRecvError, TrySendError};
use histories::model::{Fault, Model};
use histories::search::{is_of_a_queue, judge, told};
use histories::{Answer, Call, Channel, Dice, Ends, Event, How, Plan, Threads};
use run::{Flag, poll};
use std::sync::Arc;
use std::task::Poll;
use std::time::Duration;

/// A wait that a value often ends.
const SHORT: Duration = Duration::from_micros(20);

/// The channel of this crate. The values are boxes, so that one taken twice is freed twice.
struct Real {
    /// So many values went through before. The first 64 are in one segment.
    before: usize,
}

impl Channel for Real {
    type Sender = Sender<Box<u8>>;
    type Receiver = Receiver<Box<u8>>;

    fn make(&self, bound: Option<usize>) -> (Self::Sender, Self::Receiver) {
        let (sender, receiver) = bound.map_or_else(unbounded, bounded);
        for _ in 0..self.before {
            sender.send(Box::new(0)).expect("there is room");
            drop(receiver.recv());
        }
        (sender, receiver)
    }

    fn send(sender: &Self::Sender, how: How, value: u8) -> Answer {
        let value = Box::new(value);
        match how {
            How::Wait => sender.send(value).map_or(Answer::Over, |()| Answer::Done),
            How::Now => match sender.try_send(value) {
                Ok(()) => Answer::Done,
                Err(TrySendError::Full(_)) => Answer::NotNow,
                Err(TrySendError::Disconnected(_)) => Answer::Over,
            },
            How::Timed => match sender.send_timeout(value, SHORT) {
                Ok(()) => Answer::Done,
                Err(SendTimeoutError::Timeout(_)) => Answer::NotNow,
                Err(SendTimeoutError::Disconnected(_)) => Answer::Over,
            },
            How::Polled => match poll(&mut sender.send_async(value), &Arc::<Flag>::default()) {
                Poll::Ready(Ok(())) => Answer::Done,
                Poll::Ready(Err(_)) => Answer::Over,
                Poll::Pending => Answer::NotNow,
            },
        }
    }

    fn receive(receiver: &Self::Receiver, how: How) -> Answer {
        let took = |value: Box<u8>| Answer::Took(*value);
        match how {
            How::Wait => receiver.recv().map_or(Answer::Over, took),
            How::Now => receiver.try_recv().map_or_else(
                |why| match why {
                    TryRecvError::Empty => Answer::NotNow,
                    TryRecvError::Disconnected => Answer::Over,
                },
                took,
            ),
            How::Timed => receiver.recv_timeout(SHORT).map_or_else(
                |why| match why {
                    RecvTimeoutError::Timeout => Answer::NotNow,
                    RecvTimeoutError::Disconnected => Answer::Over,
                },
                took,
            ),
            How::Polled => match poll(&mut receiver.recv_async(), &Arc::<Flag>::default()) {
                Poll::Ready(result) => result.map_or(Answer::Over, took),
                Poll::Pending => Answer::NotNow,
            },
        }
    }

    fn len(ends: &Ends<Real>) -> usize {
        let sender = ends.senders.first().map(Sender::len);
        sender.unwrap_or_else(|| ends.receivers[0].len())
    }

    fn close(ends: &Ends<Real>) {
        match ends.senders.first() {
            Some(sender) => drop(sender.close()),
            None => drop(ends.receivers[0].close()),
        }
    }
}

/// Records histories of a channel until one is not that of a queue. Returns it, and how many had calls at the same time.
fn first_wrong<C: Channel>(
    channel: &C,
    bound: Option<usize>,
    count: usize,
    seed: u64,
) -> (Option<String>, usize) {
    let (threads, mut dice) = (Threads::start(), Dice(seed));
    let mut together = 0;
    for _ in 0..count {
        let plan = Plan::new(bound, &mut dice);
        let events = threads.run(channel, &plan);
        if !judge(&events, &plan) {
            return (
                Some(format!("bound {bound:?}\n{}", told(&events))),
                together,
            );
        }
        let overlap = |one: &Event, two: &Event| {
            one.thread != two.thread && one.began < two.ended && two.began < one.ended
        };
        let is_mixed = |one: &Event| events.iter().any(|two| overlap(one, two));
        together += usize::from(events.iter().any(is_mixed));
    }
    (None, together)
}

fn histories() -> usize {
    let count = std::env::var("HISTORIES").ok();
    count.map_or(1000, |it| it.parse().expect("HISTORIES is a number"))
}

/// Histories of the channel with this bound, in the first segment and where it ends. (There is none with bound 0.)
fn search_channel(bound: Option<usize>) {
    let begins = [0, 61, 63];
    let begins = &begins[..if bound == Some(0) { 1 } else { 3 }];
    for &before in begins {
        let count = histories() / begins.len();
        let (wrong, together) = first_wrong(&Real { before }, bound, count, 79);
        println!(
            "bound {bound:?}, after {before}: {count} histories, {together} with calls at once"
        );
        if let Some(wrong) = wrong {
            panic!("{wrong}");
        }
    }
}

#[test]
fn no_bound() {
    search_channel(None);
}

#[test]
fn bound_1() {
    search_channel(Some(1));
}

#[test]
fn bound_2() {
    search_channel(Some(2));
}

#[test]
fn no_capacity() {
    search_channel(Some(0));
}

/// Two sends and two receives. `moments` has the begin and the end of each, and `taken` what the receives give.
fn sends_and_receives(moments: [(u64, u64); 4], taken: [u8; 2]) -> Vec<Event> {
    let (how, end) = (How::Wait, 0);
    let send = |value| (Call::Send { how, end, value }, Answer::Done);
    let receive = |value| (Call::Receive { how, end }, Answer::Took(value));
    let calls = [send(1), send(2), receive(taken[0]), receive(taken[1])];
    let event = |((began, ended), (call, answer))| Event {
        began,
        ended,
        thread: 0,
        call,
        answer,
    };
    moments.into_iter().zip(calls).map(event).collect()
}

#[test]
fn the_search_judges_histories_written_by_hand() {
    let judges = |bound, moments, taken| {
        let events = sends_and_receives(moments, taken);
        is_of_a_queue(&events, bound, (2, 1))
    };
    let one_by_one = [(0, 1), (2, 3), (4, 5), (6, 7)];
    assert!(judges(None, one_by_one, [1, 2]));
    assert!(!judges(None, one_by_one, [2, 1]));
    assert!(!judges(None, one_by_one, [1, 1]));
    assert!(!judges(Some(1), one_by_one, [1, 2]));
    let sends_at_once = [(0, 2), (1, 3), (4, 5), (6, 7)];
    assert!(judges(None, sends_at_once, [2, 1]));
    let met = [(0, 2), (4, 6), (1, 3), (5, 7)];
    assert!(judges(Some(0), met, [1, 2]));
    let one_is_not_met = [(0, 2), (4, 5), (1, 3), (6, 7)];
    assert!(!judges(Some(0), one_is_not_met, [1, 2]));
    assert!(judges(Some(1), one_is_not_met, [1, 2]));
}

#[test]
fn the_search_allows_a_right_queue() {
    for bound in [None, Some(1), Some(2)] {
        assert_eq!(first_wrong(&Model(None), bound, 500, 79).0, None);
    }
}

#[test]
fn the_search_refuses_wrong_queues() {
    for (fault, bound) in Fault::all() {
        let (wrong, _) = first_wrong(&Model(Some(fault)), bound, 10_000, 79);
        assert!(wrong.is_some(), "{fault:?} is not seen");
    }
    // (this one has room for a value, where there is to be none)
    assert!(first_wrong(&Model(None), Some(0), 10_000, 79).0.is_some());
}
