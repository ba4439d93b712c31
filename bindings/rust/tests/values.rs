//! Tests of values of many types, which come out as they were, of reports, and of all tables, shapes and seeds.
use hazbultra::channel::unbounded;
use hazbultra::{Full, Mailbox, Note, Poll, Shape, Table};
use std::thread;

/// Puts these values into a mailbox, and sends those that its one consumer takes. Returns what is received.
fn through<T: Send>(values: Vec<T>) -> Vec<T> {
    let mailbox = Mailbox::builder().build().unwrap();
    let (mut producer, mut consumer) = (mailbox.producer().unwrap(), mailbox.consumer().unwrap());
    for value in values {
        producer.put(value).unwrap();
    }
    producer.finish();
    let (sender, receiver) = unbounded();
    let sent = consumer.values(thread::yield_now).map(|it| sender.send(it));
    assert!(sent.into_iter().all(|it| it.is_ok()));
    drop(sender);
    receiver.iter().collect()
}

#[test]
fn values_come_out_as_they_were() {
    assert_eq!(through(vec![(), (), ()]).len(), 3);
    assert_eq!(through(vec![String::from("a"), String::new()]), ["a", ""]);
    assert_eq!(through(vec![Some(1_u8), None]), [Some(1), None]);
    // (eight bytes, some of which are padding, or a pointer's, and then more)
    assert_eq!(through(vec![(1_u8, 2_u32)]), [(1, 2)]);
    assert_eq!(
        through(vec![Some(Box::new(3)), None]),
        [Some(Box::new(3)), None]
    );
    assert_eq!(through(vec![&4, &5]), [&4, &5]);
    assert_eq!(through(vec![(6, 7_u64), (8, 9)]), [(6, 7), (8, 9)]);
    assert_eq!(through(vec![[7_u64; 100]]), [[7; 100]]);
    assert_eq!(through(vec![u64::MAX, 0]), [u64::MAX, 0]);
    let local = String::from("borrowed");
    assert_eq!(through(vec![local.as_str()]), ["borrowed"]);
}

#[test]
fn values_keep_their_alignment() {
    #[repr(align(4096))]
    struct Page(u8);
    #[repr(align(16))]
    struct Empty;
    for Page(byte) in &through((0..10).map(Page).collect()) {
        assert_eq!(std::ptr::from_ref(byte).addr() % 4096, 0);
    }
    for empty in &through(vec![Empty, Empty]) {
        assert_eq!(std::ptr::from_ref(empty).addr() % 16, 0);
    }
}

#[test]
fn closures_go_through() {
    let mailbox = Mailbox::<Box<dyn FnOnce() -> usize + Send>>::builder()
        .build()
        .unwrap();
    let (mut producer, mut consumer) = (mailbox.producer().unwrap(), mailbox.consumer().unwrap());
    let text = String::from("four");
    assert!(producer.put(Box::new(move || text.len())).is_ok());
    assert_eq!(consumer.poll(0).taken().map(|job| job()), Some(4));
}

#[test]
fn a_builder_has_a_clone_also_if_its_values_have_none() {
    struct Single;
    let builder = Mailbox::<Single>::builder().cells(1);
    let mailbox = builder.clone().build().unwrap();
    let mut producer = mailbox.producer().unwrap();
    assert!(producer.put(Single).is_ok());
    assert!(producer.put(Single).is_err());
}

#[test]
fn results_can_be_printed_whatever_their_values_are() {
    struct Silent;
    let mailbox = Mailbox::builder().producers(2).build().unwrap();
    let mut producer = mailbox.producer().unwrap();
    let mut consumer = mailbox.consumer().unwrap();
    (0..4).for_each(|_| assert!(producer.put(Silent).is_ok()));
    assert_eq!(format!("{:?}", consumer.poll(0)), "Took(..)");
    assert_eq!(format!("{:?}", consumer.sweep()), "Took(..)");
    drop((producer, consumer));
    let report = format!("{:?}", mailbox.gather().unwrap());
    let lane = "LaneReport { put: 4, ended: true, left: [..; 2] }";
    assert!(report.starts_with(&format!("Report {{ lanes: [{lane}, ")));
    let lost: Poll<Silent> = Poll::Lost(63);
    assert_eq!(format!("{lost:?}"), "Lost(63)");
}

#[test]
fn values_without_bytes_are_counted_too() {
    let mailbox = Mailbox::builder().consumers(2).cells(3).build().unwrap();
    let mut producer = mailbox.producer().unwrap();
    let (mut one, mut two) = (mailbox.consumer().unwrap(), mailbox.consumer().unwrap());
    for _ in 0..3 {
        producer.put(()).unwrap();
    }
    assert_eq!(producer.put(()), Err(Full(())));
    assert_eq!(one.poll(0), Poll::Took(()));
    assert_eq!(two.poll(0), Poll::Lost(0));
    assert_eq!(two.poll(0), Poll::Took(()));
    drop((producer, one, two));
    let report = mailbox.gather().unwrap();
    assert_eq!(report.lanes[0].left, [()]);
    assert_eq!(
        report.diary(1, 0).unwrap().notes,
        [Note::Lost(0), Note::Took]
    );
    assert_eq!(
        [0, 1, 2].map(|place| report.taker(0, place)),
        [Some(0), Some(1), None]
    );
    assert_eq!([0, 1, 2].map(|who| report.taken_by(who)), [1, 1, 0]);
}

#[test]
fn a_report_has_all_lanes_and_consumers() {
    let mailbox = Mailbox::numbers()
        .producers(2)
        .consumers(3)
        .build()
        .unwrap();
    let mut producer = mailbox.producer().unwrap();
    (5..8).for_each(|item| producer.put(item).unwrap());
    producer.finish();
    let mut consumer = mailbox.consumer().unwrap();
    assert_eq!(consumer.poll(0), Poll::Took(5));
    assert_eq!(consumer.poll(1), Poll::Nothing);
    drop(consumer);
    let report = mailbox.gather().unwrap();
    let lanes = report
        .lanes
        .iter()
        .map(|lane| (lane.put, lane.ended, lane.left.as_slice()));
    assert_eq!(
        lanes.collect::<Vec<_>>(),
        [(3, true, &[6, 7][..]), (0, false, &[])]
    );
    let diaries = report
        .diaries
        .iter()
        .map(|it| (it.consumer, it.lane, it.notes.len(), it.begun));
    let expected = [(0, 0), (0, 1), (1, 0), (1, 1), (2, 0), (2, 1)];
    let expected = expected.map(|at| (at.0, at.1, usize::from(at == (0, 0)), false));
    assert_eq!(diaries.collect::<Vec<_>>(), expected);
    assert!(report.diary(3, 0).is_none() && report.diary(0, 2).is_none());
    assert_eq!(report.taker(2, 0), None);
    assert_eq!(report.into_left().collect::<Vec<_>>(), [6, 7]);
}

#[test]
fn all_tables_and_shapes_are_there() {
    for table in [Table::Unary, Table::Bits, Table::Middle] {
        for shape in [
            Shape::Plain,
            Shape::Fast,
            Shape::Last,
            Shape::FastLast,
            Shape::Exchange,
        ] {
            let builder = Mailbox::numbers().consumers(5).cells(4).pairs(8);
            let mailbox = builder.table(table).shape(shape).build().unwrap();
            let mut producer = mailbox.producer().unwrap();
            (0..4).for_each(|item| producer.put(item).unwrap());
            let mut consumers = [(); 5].map(|()| mailbox.consumer().unwrap());
            // With each table and shape the consumer that comes first, and alone, wins.
            for item in 0..4 {
                assert_eq!(consumers[item].poll(0), Poll::Took(item as u64));
                for other in (0..5).filter(|&other| other != item) {
                    assert_eq!(consumers[other].poll(0), Poll::Lost(item));
                }
            }
        }
    }
}

/// The results of 400 polls by two consumers in turn, each with a budget of three accesses.
fn polls(seed: [u8; 32]) -> Vec<Poll<u64>> {
    let builder = Mailbox::numbers().consumers(2).pairs(1).shape(Shape::Plain);
    let mailbox = builder.seed(seed).build().unwrap();
    let mut producer = mailbox.producer().unwrap();
    (0..40).for_each(|item| producer.put(item).unwrap());
    let mut consumers = [mailbox.consumer().unwrap(), mailbox.consumer().unwrap()];
    (0..400)
        .map(|turn| consumers[turn % 2].poll_within(0, 3))
        .collect()
}

#[test]
fn a_seed_goes_the_same_way_once_more() {
    let once = polls([7; 32]);
    assert_eq!(polls([7; 32]), once);
    assert!((0..10).any(|seed| polls([seed; 32]) != once));
}
