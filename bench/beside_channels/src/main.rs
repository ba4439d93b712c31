//! One run of values through this repository's channel or through another. `bench/channels.py` runs it. It prints how many
//! nanoseconds the work took, without the making of the channel, and within how many 99 of 100 values arrived, or 0.
//!
//! Its arguments are CHANNEL u64|quad|box threads|relay|turns PRODUCERS CONSUMERS VALUES.
mod proved;

use hazbultra::channel;
use proved::Word;
use std::env;
use std::hint::black_box;
use std::process::ExitCode;
use std::sync::{Arc, Mutex, PoisonError, mpsc};
use std::thread;
use std::time::Instant;

/// The sender of any of the channels.
trait Sending<T>: Clone + Send {
    fn send(&self, value: T);
}

trait Receiving<T>: Clone + Send {
    /// Sleeps until a value comes. It is `None` if no sender is left.
    fn receive(&self) -> Option<T>;
}

macro_rules! channel {
    ($channel:ident :: $send:ident, $recv:ident) => {
        impl<T: Send> Sending<T> for $channel::Sender<T> {
            fn send(&self, value: T) {
                assert!(
                    <$channel::Sender<T>>::$send(self, value).is_ok(),
                    "a receiver is there"
                );
            }
        }

        impl<T: Send> Receiving<T> for $channel::Receiver<T> {
            fn receive(&self) -> Option<T> {
                self.$recv().ok()
            }
        }
    };
}

channel!(channel::send, recv);
channel!(crossbeam_channel::send, recv);
channel!(flume::send, recv);
channel!(async_channel::send_blocking, recv_blocking);

/// The receiver of the standard library with a lock round it, since it is for one thread alone.
type Locked<T> = Arc<Mutex<mpsc::Receiver<T>>>;

impl<T: Send> Sending<T> for mpsc::Sender<T> {
    fn send(&self, value: T) {
        assert!(
            mpsc::Sender::send(self, value).is_ok(),
            "a receiver is there"
        );
    }
}

impl<T: Send> Receiving<T> for Locked<T> {
    fn receive(&self) -> Option<T> {
        self.lock()
            .unwrap_or_else(PoisonError::into_inner)
            .recv()
            .ok()
    }
}

#[derive(Clone, Copy)]
struct Plan {
    producers: u64,
    consumers: u64,
    values: u64,
}

/// How a value of type `T` is made from a number, and the number is read from it again.
#[derive(Clone, Copy)]
struct Form<T> {
    pack: fn(u64) -> T,
    unpack: fn(T) -> u64,
}

/// Runs each producer and consumer in a thread. Each value is the time of its send. Returns how long all took, and how
/// long each value took from its send to its receipt.
fn threads<T, S: Sending<T>, R: Receiving<T>>(
    (sender, receiver): (S, R),
    plan: Plan,
    form: Form<T>,
) -> (u64, Vec<u64>) {
    let began = Instant::now();
    let now = || u64::try_from(began.elapsed().as_nanos()).unwrap_or(u64::MAX);
    thread::scope(|scope| {
        for _ in 0..plan.producers {
            let sender = sender.clone();
            scope.spawn(move || {
                (0..plan.values / plan.producers).for_each(|_| sender.send((form.pack)(now())))
            });
        }
        let takers: Vec<_> = (0..plan.consumers)
            .map(|_| receiver.clone())
            .map(|receiver| {
                scope.spawn(move || {
                    let values = std::iter::from_fn(|| receiver.receive());
                    values
                        .map(|it| now() - (form.unpack)(it))
                        .collect::<Vec<_>>()
                })
            })
            .collect();
        drop((sender, receiver));
        let ways = takers
            .into_iter()
            .flat_map(|it| it.join().unwrap_or_default())
            .collect();
        (now(), ways)
    })
}

/// One thread sends `at_a_time` values and receives them, again and again. Returns how long all took.
fn alone<T, S: Sending<T>, R: Receiving<T>>(
    (sender, receiver): (S, R),
    plan: Plan,
    form: Form<T>,
    at_a_time: u64,
) -> (u64, Vec<u64>) {
    let began = Instant::now();
    for _ in 0..plan.values / at_a_time {
        (0..at_a_time).for_each(|it| sender.send((form.pack)(it)));
        (0..at_a_time)
            .for_each(|_| assert!(black_box(receiver.receive().map(form.unpack)).is_some()));
    }
    (began.elapsed().as_nanos() as u64, Vec::new())
}

fn work<T: Send, S: Sending<T>, R: Receiving<T>>(
    ends: (S, R),
    way: &str,
    plan: Plan,
    form: Form<T>,
) -> Option<(u64, Vec<u64>)> {
    match way {
        "threads" => Some(threads(ends, plan, form)),
        "relay" => Some(alone(ends, plan, form, 1)),
        "turns" => Some(alone(ends, plan, form, plan.values)),
        _ => None,
    }
}

fn through<T: Word + Send>(
    what: &str,
    way: &str,
    plan: Plan,
    form: Form<T>,
) -> Option<(u64, Vec<u64>)> {
    match what {
        "hazbultra" => work(channel::unbounded(), way, plan, form),
        "proved" => work(proved::channel(), way, plan, form),
        "crossbeam" => work(crossbeam_channel::unbounded(), way, plan, form),
        "hazbultra-100" => work(channel::bounded(100), way, plan, form),
        "crossbeam-100" => work(crossbeam_channel::bounded(100), way, plan, form),
        "flume" => work(flume::unbounded(), way, plan, form),
        "async" => work(async_channel::unbounded(), way, plan, form),
        "std" => {
            let (sender, receiver) = mpsc::channel();
            work((sender, Arc::new(Mutex::new(receiver))), way, plan, form)
        }
        _ => None,
    }
}

fn run(words: &[String]) -> Option<(u64, Vec<u64>)> {
    let [what, form, way, numbers @ ..] = words else {
        return None;
    };
    let numbers: Option<Vec<u64>> = numbers.iter().map(|it| it.parse().ok()).collect();
    let &[producers, consumers, values] = numbers?.as_slice() else {
        return None;
    };
    let plan = Plan {
        producers,
        consumers,
        values,
    };
    match form.as_str() {
        "u64" => through(
            what,
            way,
            plan,
            Form {
                pack: |it| it,
                unpack: |it| it,
            },
        ),
        "quad" => through(
            what,
            way,
            plan,
            Form {
                pack: |it| [it; 4],
                unpack: |it| it[0],
            },
        ),
        "box" => through(
            what,
            way,
            plan,
            Form {
                pack: Box::new,
                unpack: |it| *it,
            },
        ),
        _ => None,
    }
}

fn main() -> ExitCode {
    let words: Vec<String> = env::args().skip(1).collect();
    let Some((took, mut ways)) = run(&words) else {
        eprintln!(
            "usage: beside_channels hazbultra|proved|crossbeam|flume|async|std u64|box threads|relay|turns PRODUCERS CONSUMERS VALUES"
        );
        return ExitCode::FAILURE;
    };
    ways.sort_unstable();
    println!("{took} {}", ways.get(ways.len() * 99 / 100).unwrap_or(&0));
    ExitCode::SUCCESS
}
