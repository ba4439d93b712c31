//! The same work through mailboxes and queues. `mailbox` and `queue` return how long it took, without their making.
use crate::queues::Queue;
use hazbultra::{Builder, Consumer, Mailbox, Poll, Producer};
use std::hint::black_box;
use std::mem;
use std::sync::atomic::{AtomicUsize, Ordering};
use std::thread;
use std::time::{Duration, Instant};

/// Which threads there are, and which consumer takes from which producer.
#[derive(Clone, Copy)]
pub enum Way {
    /// A thread for each producer and consumer. All consumers take from all producers.
    Threads,
    /// A thread for each producer and consumer. Consumer `c` takes from producer `c` alone: it polls that lane only.
    Lanes,
    /// The same as `Lanes`, but each such pair of a producer and a consumer has a mailbox or queue of its own.
    Apart,
    /// One thread puts all items. Then each consumer takes in turn, until nothing is left for it.
    Turns,
    /// One thread puts each item, and takes it before it puts the next.
    Relay,
}

/// The way, and how many producers, consumers, items and cells there are.
#[derive(Clone, Copy)]
pub struct Plan {
    pub way: Way,
    pub producers: usize,
    pub consumers: usize,
    pub items: u64,
    /// For how many items a mailbox or a bounded queue has room.
    pub cells: usize,
}

impl Plan {
    /// How many items each producer puts.
    fn share(&self) -> u64 {
        self.items / self.producers as u64
    }

    /// The plan of one part, if each producer has a part of its own with one consumer.
    fn part(&self) -> Plan {
        let (items, cells) = (self.share(), self.cells / self.producers);
        Plan {
            way: Way::Threads,
            producers: 1,
            consumers: 1,
            items,
            cells,
        }
    }
}

/// A mailbox with all its producers and consumers.
struct Crew<T> {
    producers: Vec<Producer<T>>,
    consumers: Vec<Consumer<T>>,
    // (it is the last field, so it is dropped last)
    _mailbox: Mailbox<T>,
}

fn crew<T: Send>(builder: Builder<T>, plan: Plan) -> Crew<T> {
    let builder = builder
        .producers(plan.producers)
        .consumers(plan.consumers)
        .cells(plan.cells);
    let mailbox = builder.seed([1; 32]).build().expect("a setup in range");
    let issued = "as many as the setup has";
    Crew {
        producers: (0..plan.producers)
            .map(|_| mailbox.producer().expect(issued))
            .collect(),
        consumers: (0..plan.consumers)
            .map(|_| mailbox.consumer().expect(issued))
            .collect(),
        _mailbox: mailbox,
    }
}

/// Does the work through mailboxes of this builder.
pub fn mailbox<T: Send>(builder: fn() -> Builder<T>, plan: Plan, value: fn(u64) -> T) -> Duration {
    let parts = match plan.way {
        Way::Apart => (0..plan.producers)
            .map(|_| crew(builder(), plan.part()))
            .collect(),
        _ => vec![crew(builder(), plan)],
    };
    match plan.way {
        Way::Turns => turns(parts, plan, value),
        Way::Relay => relay(parts, plan, value),
        _ => threads(parts, plan, value),
    }
}

fn put_all<T>(mut producer: Producer<T>, items: u64, value: fn(u64) -> T) {
    for item in 0..items {
        assert!(producer.put(value(item)).is_ok(), "a cell for each item");
    }
}

fn threads<T: Send>(mut parts: Vec<Crew<T>>, plan: Plan, value: fn(u64) -> T) -> Duration {
    let began = Instant::now();
    thread::scope(|scope| {
        for part in &mut parts {
            for producer in part.producers.drain(..) {
                scope.spawn(move || put_all(producer, plan.share(), value));
            }
            for (number, mut consumer) in part.consumers.drain(..).enumerate() {
                scope.spawn(move || match plan.way {
                    Way::Lanes => take_lane(&mut consumer, number),
                    _ => consumer
                        .values(thread::yield_now)
                        .for_each(|it| drop(black_box(it))),
                });
            }
        }
    });
    began.elapsed()
}

/// Takes all items of a lane that this consumer wins, up to the lane's end.
fn take_lane<T>(consumer: &mut Consumer<T>, lane: usize) {
    loop {
        match consumer.take(lane) {
            Poll::Took(value) => drop(black_box(value)),
            Poll::Nothing => thread::yield_now(),
            Poll::Ended | Poll::NoLane => break,
            Poll::Lost(_) | Poll::Undecided | Poll::Spent => {}
        }
    }
}

fn turns<T: Send>(mut parts: Vec<Crew<T>>, plan: Plan, value: fn(u64) -> T) -> Duration {
    let part = &mut parts[0];
    let began = Instant::now();
    for producer in part.producers.drain(..) {
        put_all(producer, plan.share(), value);
    }
    for consumer in &mut part.consumers {
        consumer.values(|| ()).for_each(|it| drop(black_box(it)));
    }
    without_report(began.elapsed(), parts)
}

/// Returns this time, and forgets the mailboxes. Their drop might make a report, whose instructions would be counted.
fn without_report<T>(took: Duration, parts: Vec<Crew<T>>) -> Duration {
    mem::forget(parts);
    took
}

fn relay<T: Send>(mut parts: Vec<Crew<T>>, plan: Plan, value: fn(u64) -> T) -> Duration {
    let part = &mut parts[0];
    let (producer, consumer) = (&mut part.producers[0], &mut part.consumers[0]);
    let began = Instant::now();
    for item in 0..plan.items {
        assert!(producer.put(value(item)).is_ok(), "a cell for each item");
        drop(black_box(consumer.poll(0).taken()));
    }
    without_report(began.elapsed(), parts)
}

/// Does the work through queues that `make` makes.
pub fn queue<T: Send, Q: Queue<T>>(
    make: fn(usize) -> Q,
    plan: Plan,
    value: fn(u64) -> T,
) -> Duration {
    let part = match plan.way {
        Way::Lanes | Way::Apart => plan.part(),
        _ => plan,
    };
    let copies = plan.producers / part.producers;
    let queues: Vec<(Q, AtomicUsize)> = (0..copies)
        .map(|_| (make(part.cells), AtomicUsize::new(part.producers)))
        .collect();
    let began = Instant::now();
    match plan.way {
        Way::Turns => {
            (0..plan.items).for_each(|item| queues[0].0.put(value(item)));
            for _ in 0..plan.consumers {
                while let Some(taken) = queues[0].0.take() {
                    drop(black_box(taken));
                }
            }
        }
        Way::Relay => {
            for item in 0..plan.items {
                queues[0].0.put(value(item));
                drop(black_box(queues[0].0.take()));
            }
        }
        _ => thread::scope(|scope| {
            for (queue, open) in &queues {
                for _ in 0..part.producers {
                    scope.spawn(move || {
                        (0..part.share()).for_each(|item| queue.put(value(item)));
                        open.fetch_sub(1, Ordering::SeqCst);
                    });
                }
                for _ in 0..part.consumers {
                    scope.spawn(move || take_all(queue, open));
                }
            }
        }),
    }
    began.elapsed()
}

/// Takes until no producer puts any more, and then takes what is left.
fn take_all<T, Q: Queue<T>>(queue: &Q, open: &AtomicUsize) {
    loop {
        let is_last = open.load(Ordering::SeqCst) == 0;
        match queue.take() {
            Some(value) => drop(black_box(value)),
            None if is_last => break,
            None => thread::yield_now(),
        }
    }
}
