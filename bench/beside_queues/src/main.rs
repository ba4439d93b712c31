//! One run of items through a mailbox of the crate `hazbultra`, or through another queue. It prints how many nanoseconds
//! the work took, without the making of either. `bench/queues.py` and `bench/boundary.py` run it.
//!
//! Its arguments are WHAT WAY PRODUCERS CONSUMERS ITEMS CELLS.
mod queues;
mod work;

use crossbeam_queue::{ArrayQueue, SegQueue};
use hazbultra::{Builder, Mailbox, Shape};
use queues::Channel;
use std::collections::VecDeque;
use std::env;
use std::process::ExitCode;
use std::sync::Mutex;
use std::time::Duration;
use work::{mailbox, queue, Plan, Way};

const USAGE: &str = "usage: beside_queues \
    plain|fast|last|fastlast|exchange|plain_boxes|boxes|exchange_boxes|seg|seg_boxes|array|channel|deque \
    threads|lanes|apart|turns|relay PRODUCERS CONSUMERS ITEMS CELLS";

fn shaped(shape: Shape) -> Builder<u64> {
    Mailbox::numbers().shape(shape)
}

/// A builder of mailboxes of this shape whose items are boxes.
fn boxed(shape: Shape) -> Builder<Box<u64>> {
    Mailbox::builder().shape(shape)
}

/// Does the work. Returns how long it took, or `None` if `what` names no mailbox or queue.
fn run(what: &str, plan: Plan) -> Option<Duration> {
    Some(match what {
        "plain" => mailbox(|| shaped(Shape::Plain), plan, |item| item),
        "fast" => mailbox(|| shaped(Shape::Fast), plan, |item| item),
        "last" => mailbox(|| shaped(Shape::Last), plan, |item| item),
        "fastlast" => mailbox(|| shaped(Shape::FastLast), plan, |item| item),
        "exchange" => mailbox(|| shaped(Shape::Exchange), plan, |item| item),
        "plain_boxes" => mailbox(|| boxed(Shape::Plain), plan, Box::new),
        "boxes" => mailbox(|| boxed(Shape::FastLast), plan, Box::new),
        "exchange_boxes" => mailbox(|| boxed(Shape::Exchange), plan, Box::new),
        "seg" => queue(|_| SegQueue::new(), plan, |item| item),
        "seg_boxes" => queue(|_| SegQueue::new(), plan, Box::new),
        "array" => queue(ArrayQueue::new, plan, |item| item),
        "channel" => queue(|_| Channel::new(), plan, |item| item),
        "deque" => queue(|_| Mutex::new(VecDeque::new()), plan, |item| item),
        _ => return None,
    })
}

fn asked(words: &[String]) -> Option<(&str, Plan)> {
    let [what, way, numbers @ ..] = words else {
        return None;
    };
    let numbers: Option<Vec<usize>> = numbers.iter().map(|it| it.parse().ok()).collect();
    let &[producers, consumers, items, cells] = numbers?.as_slice() else {
        return None;
    };
    let way = match way.as_str() {
        "threads" => Way::Threads,
        "lanes" => Way::Lanes,
        "apart" => Way::Apart,
        "turns" => Way::Turns,
        "relay" => Way::Relay,
        _ => return None,
    };
    let plan = Plan {
        way,
        producers,
        consumers,
        items: items as u64,
        cells,
    };
    (producers > 0).then_some((what.as_str(), plan))
}

fn main() -> ExitCode {
    let words: Vec<String> = env::args().skip(1).collect();
    match asked(&words).and_then(|(what, plan)| run(what, plan)) {
        Some(took) => {
            println!("{}", took.as_nanos());
            ExitCode::SUCCESS
        }
        None => {
            eprintln!("{USAGE}");
            ExitCode::FAILURE
        }
    }
}
