//! Tests of the issue and the return of producers and consumers, of sweeps, and of numbers that a builder refuses.
use hazbultra::{
    BuildError, Consumer, GatherError, IssueError, Mailbox, Poll, Producer, Shape, Sweep,
};
use std::cell::Cell;
use std::mem;
use std::panic::{self, AssertUnwindSafe};
use std::thread;

// Threads may share a mailbox, even if its values are not `Sync`.
const _: () = {
    const fn is_shared<T: Send + Sync>() {}
    is_shared::<Mailbox<u8>>();
    is_shared::<Mailbox<Cell<u8>>>();
};

#[test]
fn a_report_waits_for_all_parts() {
    let mailbox = Mailbox::builder()
        .producers(2)
        .consumers(2)
        .build()
        .unwrap();
    let mut one = mailbox.producer().unwrap();
    let (two, consumer) = (mailbox.producer().unwrap(), mailbox.consumer().unwrap());
    one.put('a').unwrap();
    let Err(GatherError::Missing {
        producers: 2,
        consumers: 1,
        mailbox,
        ..
    }) = mailbox.gather()
    else {
        panic!("three are out")
    };
    drop(two);
    let Err(GatherError::Missing {
        producers: 1,
        consumers: 1,
        mailbox,
        ..
    }) = mailbox.gather()
    else {
        panic!("two are out")
    };
    // The mailbox in the error is as it was: the item is there, and a further consumer is issued.
    drop(consumer);
    let mut consumer = mailbox.consumer().unwrap();
    assert_eq!(consumer.number(), 1);
    assert_eq!(consumer.poll(0), Poll::Took('a'));
    drop((one, consumer));
    assert!(mailbox.gather().is_ok());
}

#[test]
fn a_part_that_is_forgotten_stays_missing() {
    let mailbox = Mailbox::<u8>::builder().build().unwrap();
    mem::forget(mailbox.consumer().unwrap());
    let why = mailbox.gather().unwrap_err();
    assert_eq!(why.to_string(), "producers out: 0, consumers out: 1");
    assert_eq!(
        format!("{why:?}"),
        "Missing { producers: 0, consumers: 1, .. }"
    );
}

#[test]
fn a_worker_that_panics_is_no_missing_part() {
    let mailbox = Mailbox::numbers().consumers(2).build().unwrap();
    let mut producer = mailbox.producer().unwrap();
    let mut consumers = [mailbox.consumer().unwrap(), mailbox.consumer().unwrap()];
    let put = thread::spawn(move || {
        producer.put(1).unwrap();
        producer.put(2).unwrap();
        panic!("after two puts, as it should")
    });
    assert!(put.join().is_err());
    let [mut bad, good] = consumers.each_mut().map(|it| it.values(thread::yield_now));
    assert_eq!(bad.next(), Some(1));
    // The lane of the producer that panicked has ended. So these values come to an end.
    assert_eq!(good.collect::<Vec<_>>(), [2]);
    let [bad, good] = consumers;
    assert!(
        thread::spawn(move || {
            let _held = bad;
            panic!("with a consumer, as it should")
        })
        .join()
        .is_err()
    );
    drop(good);
    let report = mailbox.gather().unwrap();
    assert_eq!((report.lanes[0].put, report.lanes[0].ended), (2, true));
}

#[test]
fn a_worker_that_took_a_value_and_panicked_is_its_taker() {
    let mailbox = Mailbox::builder().build().unwrap();
    let (mut producer, mut consumer) = (mailbox.producer().unwrap(), mailbox.consumer().unwrap());
    producer.put(String::from("a letter")).unwrap();
    producer.finish();
    let worker = thread::spawn(move || {
        let _letter = consumer.poll(0).taken().unwrap();
        panic!("with a letter, as it should")
    });
    assert!(worker.join().is_err());
    let report = mailbox.gather().unwrap();
    assert_eq!(report.taker(0, 0), Some(0));
    assert!(report.lanes[0].left.is_empty());
}

#[test]
fn an_idle_that_panics_leaves_its_consumer_usable() {
    let mailbox = Mailbox::builder().build().unwrap();
    let (mut producer, mut consumer) = (mailbox.producer().unwrap(), mailbox.consumer().unwrap());
    let mut values = consumer.values(|| panic!("nothing is there, as it should"));
    assert!(panic::catch_unwind(AssertUnwindSafe(|| values.next())).is_err());
    producer.put('a').unwrap();
    assert_eq!(values.next(), Some('a'));
    producer.put('b').unwrap();
    assert_eq!(consumer.poll(0), Poll::Took('b'));
}

#[test]
fn values_that_came_to_their_end_stay_there() {
    let mailbox = Mailbox::builder().build().unwrap();
    let (mut producer, mut consumer) = (mailbox.producer().unwrap(), mailbox.consumer().unwrap());
    producer.put('a').unwrap();
    producer.finish();
    let mut values = consumer.values(|| panic!("the lane has ended"));
    let read = [(); 4].map(|()| values.next());
    assert_eq!(read, [Some('a'), None, None, None]);
}

#[test]
fn parts_go_on_after_their_mailbox_was_dropped() {
    let mailbox = Mailbox::builder().build().unwrap();
    let (mut producer, mut consumer) = (mailbox.producer().unwrap(), mailbox.consumer().unwrap());
    drop(mailbox);
    producer.put('a').unwrap();
    assert_eq!(consumer.poll(0), Poll::Took('a'));
    assert_eq!(consumer.poll(0), Poll::Nothing);
    producer.finish();
    assert_eq!(consumer.poll(0), Poll::Ended);
}

#[test]
fn each_number_is_given_once() {
    let mailbox = Mailbox::<u8>::builder()
        .producers(16)
        .consumers(64)
        .build()
        .unwrap();
    let producers: Vec<_> = (0..16).map(|_| mailbox.producer().unwrap()).collect();
    assert!(producers.iter().map(Producer::lane).eq(0..16));
    let error = mailbox.producer().unwrap_err();
    assert_eq!(error, IssueError::AllProducersGiven(16));
    assert_eq!(
        error.to_string(),
        "the mailbox was built for 16 producers, and all were given"
    );
    let consumers: Vec<_> = (0..64).map(|_| mailbox.consumer().unwrap()).collect();
    assert!(consumers.iter().map(Consumer::number).eq(0..64));
    let error = mailbox.consumer().unwrap_err();
    assert_eq!(error, IssueError::AllConsumersGiven(64));
    assert_eq!(
        error.to_string(),
        "the mailbox was built for 64 consumers, and all were given"
    );
    drop((producers, consumers));
    assert!(mailbox.gather().is_ok());
}

#[test]
fn lanes_that_nobody_asked_for_can_be_ended() {
    let mailbox = Mailbox::<u8>::builder().producers(3).build().unwrap();
    let mut consumer = mailbox.consumer().unwrap();
    mailbox.producer().unwrap().finish();
    assert_eq!(consumer.sweep(), Sweep::Nothing);
    mailbox.end_free_lanes().unwrap();
    assert_eq!(consumer.sweep(), Sweep::Ended);
    assert_eq!(consumer.sweep(), Sweep::Ended);
}

#[test]
fn a_sweep_takes_the_lanes_in_turn() {
    use Sweep::{Nothing, Took};
    let mailbox = Mailbox::numbers().producers(3).build().unwrap();
    let mut producers = [(); 3].map(|()| mailbox.producer().unwrap());
    for (lane, item) in [(0, 0), (1, 10), (0, 1), (1, 11)] {
        producers[lane].put(item).unwrap();
    }
    let mut consumer = mailbox.consumer().unwrap();
    let taken: Vec<_> = (0..5).map(|_| consumer.sweep()).collect();
    assert_eq!(taken, [Took(0), Took(10), Took(1), Took(11), Nothing]);
    producers[2].put(20).unwrap();
    assert_eq!(consumer.sweep().taken(), Some(20));
    assert_eq!(consumer.sweep().taken(), None);
}

#[test]
fn numbers_out_of_range_are_refused_in_order() {
    let built = |producers, consumers, cells, pairs| {
        let builder = Mailbox::<u8>::builder()
            .producers(producers)
            .consumers(consumers)
            .shape(Shape::FastLast);
        builder.cells(cells).pairs(pairs).build().map(|_| ())
    };
    assert_eq!(built(0, 0, 1 << 25, 0), Err(BuildError::BadProducers));
    assert_eq!(built(17, 65, 1, 1), Err(BuildError::BadProducers));
    assert_eq!(built(16, 0, 1 << 25, 0), Err(BuildError::BadConsumers));
    assert_eq!(built(1, 65, 1, 9), Err(BuildError::BadConsumers));
    assert_eq!(built(1, 64, (1 << 24) + 1, 9), Err(BuildError::BadCells));
    assert_eq!(built(1, 64, 0, 0), Err(BuildError::BadPairs));
    assert_eq!(built(1, 1, 0, 9), Err(BuildError::BadPairs));
    assert_eq!(built(16, 64, 0, 8), Ok(()));
}
