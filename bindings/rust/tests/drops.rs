//! Tests that each value is dropped once, whatever becomes of it.
use hazbultra::{Full, Mailbox, Poll, Shape};
use std::sync::Arc;
use std::sync::atomic::{AtomicUsize, Ordering};
use std::thread;

/// Counts how many values were dropped.
#[derive(Clone, Default)]
struct Drops(Arc<AtomicUsize>);

impl Drops {
    fn value(&self) -> Value {
        Value(self.clone())
    }

    fn count(&self) -> usize {
        self.0.load(Ordering::SeqCst)
    }
}

struct Value(Drops);

impl Drop for Value {
    fn drop(&mut self) {
        self.0.0.fetch_add(1, Ordering::SeqCst);
    }
}

#[test]
fn a_value_that_is_taken_is_dropped_by_its_taker() {
    let drops = Drops::default();
    let mailbox = Mailbox::builder().build().unwrap();
    let (mut producer, mut consumer) = (mailbox.producer().unwrap(), mailbox.consumer().unwrap());
    producer.put(drops.value()).unwrap();
    let value = consumer.poll(0).taken().unwrap();
    drop((producer, consumer));
    assert!(mailbox.gather().unwrap().into_left().next().is_none());
    assert_eq!(drops.count(), 0);
    drop(value);
    assert_eq!(drops.count(), 1);
}

#[test]
fn a_value_that_is_left_is_dropped_with_the_report() {
    let drops = Drops::default();
    let mailbox = Mailbox::builder().build().unwrap();
    let mut producer = mailbox.producer().unwrap();
    producer.put(drops.value()).unwrap();
    drop(producer);
    let report = mailbox.gather().unwrap();
    assert_eq!(drops.count(), 0);
    drop(report);
    assert_eq!(drops.count(), 1);
}

#[test]
fn a_mailbox_that_nobody_gathers_drops_what_is_inside() {
    let drops = Drops::default();
    let mailbox = Mailbox::builder().producers(2).build().unwrap();
    let (mut one, mut two) = (mailbox.producer().unwrap(), mailbox.producer().unwrap());
    let mut consumer = mailbox.consumer().unwrap();
    for producer in [&mut one, &mut two] {
        producer.put(drops.value()).unwrap();
        producer.put(drops.value()).unwrap();
    }
    drop(consumer.poll(1).taken().unwrap());
    assert_eq!(drops.count(), 1);
    // The values left inside are dropped with the last of these, in whatever order they are dropped.
    drop((one, mailbox, consumer));
    assert_eq!(drops.count(), 1);
    drop(two);
    assert_eq!(drops.count(), 4);
}

#[test]
fn a_value_that_finds_no_cell_comes_back() {
    let drops = Drops::default();
    let mailbox = Mailbox::builder().cells(0).build().unwrap();
    let mut producer = mailbox.producer().unwrap();
    let Err(Full(value)) = producer.put(drops.value()) else {
        panic!("there is no cell")
    };
    drop((producer, mailbox));
    assert_eq!(drops.count(), 0);
    drop(value);
    assert_eq!(drops.count(), 1);
}

/// The consumer stops after each number of accesses. At the latest it has won the item, but not loaded it.
#[test]
fn a_consumer_that_stops_midway_leaves_the_value() {
    for shape in [
        Shape::Plain,
        Shape::Fast,
        Shape::Last,
        Shape::FastLast,
        Shape::Exchange,
    ] {
        for budget in 0.. {
            let drops = Drops::default();
            let mailbox = Mailbox::builder()
                .consumers(2)
                .shape(shape)
                .seed([1; 32])
                .build()
                .unwrap();
            let mut producer = mailbox.producer().unwrap();
            producer.put(drops.value()).unwrap();
            let mut consumer = mailbox.consumer().unwrap();
            let polled = consumer.poll_within(0, budget);
            let taken = matches!(polled, Poll::Took(_));
            assert!(taken || matches!(polled, Poll::Spent));
            drop((polled, producer, consumer));
            assert_eq!(drops.count(), usize::from(taken));
            let report = mailbox.gather().unwrap();
            assert_eq!(report.lanes[0].left.len(), usize::from(!taken));
            // (the first access finds the item, and belongs to no claim)
            assert_eq!(report.diaries[0].begun, !taken && budget > 1);
            drop(report);
            assert_eq!(drops.count(), 1);
            if taken {
                assert!(budget > 2, "there were stops midway");
                break;
            }
        }
    }
}

#[test]
fn threads_drop_each_value_once() {
    const EACH: usize = 200;
    let drops = Drops::default();
    let mailbox = Mailbox::builder()
        .producers(2)
        .consumers(3)
        .cells(2 * EACH)
        .build()
        .unwrap();
    let producers = [mailbox.producer().unwrap(), mailbox.producer().unwrap()];
    let consumers = [(); 3].map(|()| mailbox.consumer().unwrap());
    let taken: usize = thread::scope(|scope| {
        for mut producer in producers {
            let drops = &drops;
            scope.spawn(move || (0..EACH).for_each(|_| producer.put(drops.value()).unwrap()));
        }
        let takers = consumers
            .map(|mut consumer| scope.spawn(move || consumer.values(thread::yield_now).count()));
        takers.into_iter().map(|it| it.join().unwrap()).sum()
    });
    assert_eq!(drops.count(), taken);
    // Each consumer read its values to the end, so nothing is left.
    assert_eq!(mailbox.gather().unwrap().into_left().count(), 0);
    assert_eq!((taken, drops.count()), (2 * EACH, 2 * EACH));
}

/// The drop of one value that is left panics. The others are dropped all the same.
#[test]
fn a_drop_that_panics_keeps_no_other_from_its_drop() {
    struct Bad(Drops);
    impl Drop for Bad {
        fn drop(&mut self) {
            assert!(self.0.0.fetch_add(1, Ordering::SeqCst) != 1, "as it should");
        }
    }
    let drops = Drops::default();
    let mailbox = Mailbox::builder().build().unwrap();
    let mut producer = mailbox.producer().unwrap();
    for _ in 0..3 {
        assert!(producer.put(Bad(drops.clone())).is_ok());
    }
    drop(producer);
    let dropped = thread::spawn(move || drop(mailbox)).join();
    assert!(dropped.is_err());
    assert_eq!(drops.count(), 3);
}
