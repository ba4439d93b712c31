//! Tests of polls and takes by consumers that compete for the same items, and of builders with 0 pairs.
use hazbultra::{BuildError, Builder, Mailbox, Note, Poll, Shape};
use std::thread;

/// Builders, their numbers of consumers, and how many accesses a poll makes at most, as `Consumer::poll` promises.
fn most() -> impl Iterator<Item = (Builder<u64>, usize, u64)> {
    let counts = [(1, 31), (2, 47), (4, 63), (16, 95), (64, 127)];
    counts.into_iter().flat_map(|(count, fast_last)| {
        let by_default = Mailbox::numbers().consumers(count);
        let shaped = by_default.clone().shape(Shape::FastLast);
        [(by_default, count, 3), (shaped, count, fast_last)]
    })
}

/// Two consumers poll in turn, with a budget of three accesses. With other seeds one of them may win.
#[test]
fn a_poll_and_its_note_may_be_undecided() {
    let builder = Mailbox::numbers().consumers(2).pairs(1).shape(Shape::Plain);
    let mailbox = builder.seed([0; 32]).build().unwrap();
    let mut producer = mailbox.producer().unwrap();
    producer.put(7).unwrap();
    let mut consumers = [mailbox.consumer().unwrap(), mailbox.consumer().unwrap()];
    let mut ends = [Poll::Spent; 2];
    while ends.contains(&Poll::Spent) {
        for (consumer, end) in consumers.iter_mut().zip(&mut ends) {
            if *end == Poll::Spent {
                *end = consumer.poll_within(0, 3);
            }
        }
    }
    assert_eq!(ends, [Poll::Undecided; 2]);
    drop((producer, consumers));
    let report = mailbox.gather().unwrap();
    for consumer in 0..2 {
        let diary = report.diary(consumer, 0).unwrap();
        assert_eq!(diary.notes, [Note::Undecided]);
    }
    assert_eq!(report.taker(0, 0), None);
    assert_eq!(report.into_left().collect::<Vec<_>>(), [7]);
}

/// All consumers compete for each item by one access each in turn, as many times as `in_step` says. Then each spends the
/// rest of its budget in one poll.
#[test]
fn consumers_in_step_need_no_larger_budget_than_the_docs_say() {
    for (builder, count, most) in most() {
        let mailbox = builder.seed([1; 32]).build().unwrap();
        let mut producer = mailbox.producer().unwrap();
        (0..most).for_each(|item| producer.put(item).unwrap());
        let mut consumers: Vec<_> = (0..count).map(|_| mailbox.consumer().unwrap()).collect();
        for in_step in 0..most {
            let mut ends = vec![Poll::Spent; consumers.len()];
            for budget in (0..in_step).map(|_| 1).chain([most - in_step]) {
                for (consumer, end) in consumers.iter_mut().zip(&mut ends) {
                    if *end == Poll::Spent {
                        *end = consumer.poll_within(0, budget);
                    }
                }
            }
            // Each consumer has a result on this item, and one has taken it.
            let took = ends.iter().filter(|end| **end == Poll::Took(in_step));
            assert_eq!(took.count(), 1);
            assert!(!ends.contains(&Poll::Spent));
        }
    }
}

#[test]
fn threads_that_contend_need_no_larger_budget_than_the_docs_say() {
    for (builder, count, most) in most() {
        let mailbox = builder.build().unwrap();
        let mut producer = mailbox.producer().unwrap();
        (0..200).for_each(|item| producer.put(item).unwrap());
        producer.finish();
        let consumers: Vec<_> = (0..count).map(|_| mailbox.consumer().unwrap()).collect();
        thread::scope(|scope| {
            for mut consumer in consumers {
                scope.spawn(move || {
                    loop {
                        match consumer.poll_within(0, most) {
                            Poll::Took(_) | Poll::Lost(_) => (),
                            Poll::Ended => break,
                            other => panic!("{other:?}"),
                        }
                    }
                });
            }
        });
        assert_eq!(mailbox.gather().unwrap().into_left().count(), 0);
    }
}

#[test]
fn a_second_consumer_gets_the_item_of_one_that_stopped_or_its_number() {
    for shape in [Shape::Last, Shape::FastLast, Shape::Exchange] {
        let (mut by_first, mut by_second) = (0, 0);
        for budget in 0.. {
            let builder = Mailbox::numbers().consumers(2).shape(shape);
            let mailbox = builder.seed([1; 32]).build().unwrap();
            let mut producer = mailbox.producer().unwrap();
            producer.put(7).unwrap();
            let (mut first, mut second) =
                (mailbox.consumer().unwrap(), mailbox.consumer().unwrap());
            let stopped = first.poll_within(0, budget);
            let other = second.poll(0);
            if let Poll::Took(7) = stopped {
                assert_eq!(other, Poll::Lost(0));
                break;
            }
            assert_eq!(stopped, Poll::Spent);
            // The first consumer goes on, and its result names the same winner.
            match (other, first.poll(0)) {
                (Poll::Lost(0), Poll::Took(7)) => by_first += 1,
                (Poll::Took(7), Poll::Lost(1)) => by_second += 1,
                both => panic!("{both:?} after {budget} accesses"),
            }
        }
        assert!(by_first > 0 && by_second > 0, "there were stops of both");
    }
}

/// Three consumers take items 0 to 7 in turn. Each takes the next one that nobody has, past those that others took.
#[test]
fn a_take_goes_past_what_is_lost() {
    for shape in [Shape::FastLast, Shape::Exchange] {
        let mailbox = Mailbox::numbers().consumers(3).shape(shape);
        let mailbox = mailbox.build().unwrap();
        let mut producer = mailbox.producer().unwrap();
        (0..8).for_each(|item| producer.put(item).unwrap());
        let mut consumers = [(); 3].map(|()| mailbox.consumer().unwrap());
        for item in 0..8 {
            assert_eq!(consumers[item % 3].take(0), Poll::Took(item as u64));
        }
        for consumer in &mut consumers {
            assert_eq!(consumer.take(0), Poll::Nothing);
            assert_eq!(consumer.take(1), Poll::NoLane);
        }
        producer.finish();
        for consumer in &mut consumers {
            assert_eq!(consumer.take_within(0, 0), Poll::Spent);
            assert_eq!(consumer.take(0), Poll::Ended);
        }
        drop(consumers);
        let report = mailbox.gather().unwrap();
        for (place, taker) in (0..8).map(|place| (place, place % 3)) {
            assert_eq!(report.taker(0, place), Some(taker));
            for other in (0..3).filter(|&other| other != taker) {
                let notes = &report.diary(other, 0).unwrap().notes;
                assert_eq!(notes[place], Note::Lost(taker));
            }
        }
    }
}

#[test]
fn no_pairs_are_refused_but_of_exchanges() {
    for shape in [Shape::Plain, Shape::Fast, Shape::Last, Shape::FastLast] {
        let builder = Mailbox::numbers().pairs(0).shape(shape);
        assert_eq!(builder.build().unwrap_err(), BuildError::BadPairs);
    }
    let builder = Mailbox::numbers().pairs(9).shape(Shape::Exchange);
    assert!(builder.build().is_ok());
    assert!(matches!(
        builder.producers(17).build(),
        Err(BuildError::BadProducers)
    ));
}
