//! Random calls on mailboxes in which each claim is one exchange, compared with a model that goes access by access.
//! Each run is played twice: by takes, and by the polls that a take stands for. Consumers stop midway, and lanes end.
//! The last test has no model: 64 consumers share one large mailbox.
use hazbultra::{Consumer, Full, Mailbox, Note, Poll, Shape};

/// Which access a consumer makes next on a lane: of the link, of the claim, or of the item that it has won.
#[derive(Clone, Copy)]
enum Next {
    Link,
    Exchange,
    Item,
}

/// The items of a lane with their winners, and whether it has ended.
#[derive(Default)]
struct Lane {
    items: Vec<(u64, Option<usize>)>,
    ended: bool,
}

/// The model of a consumer on a lane: its notes, and the access that it makes next.
struct Place {
    notes: Vec<Note>,
    next: Next,
}

impl Place {
    /// Makes one access of this consumer. Returns the result of its poll, if the access brings one.
    fn step(&mut self, lane: &mut Lane, me: usize) -> Option<Poll<u64>> {
        match (lane.items.get_mut(self.notes.len()), self.next) {
            (None, _) if lane.ended => return Some(Poll::Ended),
            (None, _) => return Some(Poll::Nothing),
            (Some(_), Next::Link) => self.next = Next::Exchange,
            (Some((_, winner)), Next::Exchange) => match *winner.get_or_insert(me) {
                winner if winner == me => self.next = Next::Item,
                winner => {
                    self.note(Note::Lost(winner));
                    return Some(Poll::Lost(winner));
                }
            },
            (Some((item, _)), Next::Item) => {
                self.note(Note::Took);
                return Some(Poll::Took(*item));
            }
        }
        None
    }

    fn note(&mut self, note: Note) {
        self.notes.push(note);
        self.next = Next::Link;
    }

    /// Makes a poll. Returns its result, and what is left of the budget.
    fn poll(&mut self, lane: &mut Lane, me: usize, budget: u64) -> (Poll<u64>, u64) {
        for made in 0..budget {
            if let Some(result) = self.step(lane, me) {
                return (result, budget - made - 1);
            }
        }
        (Poll::Spent, 0)
    }
}

/// A source of random numbers (xorshift).
struct Random(u64);

impl Random {
    fn below(&mut self, end: u64) -> u64 {
        self.0 ^= self.0 << 13;
        self.0 ^= self.0 >> 7;
        self.0 ^= self.0 << 17;
        (self.0 >> 16) % end
    }

    fn index(&mut self, end: usize) -> usize {
        usize::try_from(self.below(end as u64)).unwrap()
    }
}

/// Makes a take if `whole` is set, else the polls that it stands for. Compares each result with the model's.
fn take(
    consumer: &mut Consumer<u64>,
    at: usize,
    place: &mut Place,
    lane: &mut Lane,
    (most, whole): (u64, bool),
) {
    let me = consumer.number();
    let mut rest = most;
    loop {
        let (result, left) = place.poll(lane, me, rest);
        if !whole {
            assert_eq!(consumer.poll_within(at, rest), result);
        }
        rest = left;
        if !matches!(result, Poll::Lost(_)) {
            if whole {
                assert_eq!(consumer.take_within(at, most), result);
            }
            return;
        }
    }
}

fn play(seed: u64, producers: usize, consumers: usize, cells: usize, turns: usize, whole: bool) {
    let mut random = Random(seed);
    let builder = Mailbox::numbers()
        .producers(producers)
        .consumers(consumers)
        .cells(cells);
    let mailbox = builder.shape(Shape::Exchange).build().unwrap();
    let mut puts: Vec<_> = (0..producers).map(|_| mailbox.producer().ok()).collect();
    let mut takers: Vec<_> = (0..consumers).map(|_| mailbox.consumer().ok()).collect();
    let mut lanes: Vec<_> = (0..producers).map(|_| Lane::default()).collect();
    let new = || Place {
        notes: vec![],
        next: Next::Link,
    };
    let mut places: Vec<Vec<_>> = (0..consumers)
        .map(|_| (0..producers).map(|_| new()).collect())
        .collect();
    for turn in 0..turns {
        let (at, who) = (random.index(producers), random.index(consumers));
        let most = [random.below(8), u64::MAX][random.index(2)];
        match (random.below(40), &mut puts[at], &mut takers[who]) {
            (0, producer, _) => lanes[at].ended |= producer.take().is_some(),
            (1, _, consumer) => drop(consumer.take()),
            (2..=13, Some(producer), _) => {
                let item = turn as u64;
                let is_full = lanes.iter().map(|lane| lane.items.len()).sum::<usize>() == cells;
                assert_eq!(
                    producer.put(item),
                    if is_full { Err(Full(item)) } else { Ok(()) }
                );
                lanes[at].items.extend((!is_full).then_some((item, None)));
            }
            (14.., _, Some(consumer)) => take(
                consumer,
                at,
                &mut places[who][at],
                &mut lanes[at],
                (most, whole),
            ),
            _ => {}
        }
    }
    drop((puts, takers));
    let report = mailbox.gather().unwrap();
    for (at, lane) in lanes.iter().enumerate() {
        assert_eq!(report.lanes[at].put, lane.items.len());
        assert!(report.lanes[at].ended);
        for (who, places) in places.iter().enumerate() {
            let diary = report.diary(who, at).unwrap();
            assert_eq!(diary.notes, places[at].notes);
            assert_eq!(diary.begun, matches!(places[at].next, Next::Item));
        }
        let is_taken = |place: usize| {
            places
                .iter()
                .any(|it| it[at].notes.get(place) == Some(&Note::Took))
        };
        let left = lane
            .items
            .iter()
            .enumerate()
            .filter(|&(place, _)| !is_taken(place));
        assert_eq!(
            report.lanes[at].left,
            left.map(|(_, item)| item.0).collect::<Vec<_>>()
        );
    }
}

#[test]
fn a_thousand_mailboxes_go_as_the_model_by_takes_and_by_polls() {
    let mut random = Random(88_172_645_463_325_252);
    for seed in 1..=1000 {
        let consumers = [1 + random.index(4), 1 + random.index(64)][random.index(2)];
        let (producers, cells, turns) = (
            1 + random.index(16),
            random.index(60),
            20 + random.index(300),
        );
        for whole in [true, false] {
            play(seed, producers, consumers, cells, turns, whole);
        }
    }
}

#[test]
fn sixty_four_consumers_share_a_million_cells() {
    let builder = Mailbox::numbers().consumers(64).cells(1 << 20);
    let mailbox = builder.shape(Shape::Exchange).build().unwrap();
    let mut producer = mailbox.producer().unwrap();
    let mut consumers: Vec<_> = (0..64).map(|_| mailbox.consumer().unwrap()).collect();
    (0..1 << 20).for_each(|item| producer.put(item).unwrap());
    assert_eq!(producer.put(0), Err(Full(0)));
    // Each consumer goes on past all items that those before it took.
    for (who, item) in (0..64).chain((0..64).rev()).zip(0..) {
        assert_eq!(consumers[who].take(0), Poll::Took(item));
    }
    drop(producer);
    assert_eq!(
        consumers[7].values(std::thread::yield_now).count(),
        (1 << 20) - 128
    );
    assert_eq!(consumers[63].take(0), Poll::Ended);
    drop(consumers);
    let report = mailbox.gather().unwrap();
    assert_eq!(
        (
            report.taker(0, 63),
            report.taker(0, 64),
            report.taker(0, 1 << 19)
        ),
        (Some(63), Some(63), Some(7))
    );
    assert_eq!(report.into_left().count(), 0);
}
