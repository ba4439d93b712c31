//! A mailbox that threads could share. Here one thread makes all calls of its producer and its consumers.

use crate::claim::{Claim, Stage};
use crate::exchange::{Take, Taker};
use crate::layout::{CELLS, Layout, atomic_zeros};
use crate::source::Source;
use std::fmt;
use std::hint::black_box;
use std::sync::atomic::AtomicU64;
use std::sync::atomic::Ordering::SeqCst;

/// The end mark of a lane, in the place of a link.
pub const END: u64 = u64::MAX;

/// How many lanes a mailbox has.
pub const LANES: usize = 1;

/// How many items were put and how many notes counted, in all mailboxes, and the sum of the items taken.
#[derive(Default)]
pub struct Post {
    items: u64,
    notes: u64,
    taken: u64,
}

impl fmt::Display for Post {
    fn fmt(&self, f: &mut fmt::Formatter) -> fmt::Result {
        write!(f, "{} items, {} notes, {} taken in sum", self.items, self.notes, self.taken)
    }
}

/// The words of lanes and cells, and of the claims on cells.
pub struct Mailbox<'a> {
    layout: &'a Layout,
    counter: AtomicU64,
    pub heads: Vec<AtomicU64>,
    pub links: Vec<AtomicU64>,
    pub items: Vec<AtomicU64>,
    pub claims: Vec<AtomicU64>,
}

impl Mailbox<'_> {
    fn new(layout: &Layout) -> Mailbox<'_> {
        Mailbox {
            layout,
            counter: AtomicU64::new(0),
            heads: atomic_zeros(LANES),
            links: atomic_zeros(CELLS),
            items: atomic_zeros(CELLS),
            claims: layout.atomic_words(),
        }
    }

    /// The link of this cell, or the lane's head if there is no cell.
    #[inline]
    fn link(&self, lane: usize, last: Option<usize>) -> &AtomicU64 {
        match last {
            None => &self.heads[lane],
            Some(cell) => &self.links[cell],
        }
    }
}

#[derive(Clone, Copy, PartialEq, Eq)]
enum Put {
    Linked,
    Full,
    Closed,
}

/// The stage of a lane: open, full after a put that found no cell, or ended.
#[derive(Clone, Copy, PartialEq, Eq)]
enum LaneStage {
    Open,
    Full,
    Ended,
}

/// The producer of a lane, and the items that it put.
struct Producer {
    lane: usize,
    last: Option<usize>,
    stage: LaneStage,
    put: Vec<u64>,
}

impl Producer {
    fn new(lane: usize) -> Producer {
        Producer { lane, last: None, stage: LaneStage::Open, put: Vec::with_capacity(CELLS) }
    }

    fn put(&mut self, mailbox: &Mailbox, item: u64) -> Put {
        match self.stage {
            LaneStage::Open => {}
            LaneStage::Full => return Put::Full,
            LaneStage::Ended => return Put::Closed,
        }
        let cell = mailbox.counter.fetch_add(1, SeqCst) as usize;
        if cell >= CELLS {
            self.stage = LaneStage::Full;
            return Put::Full;
        }
        mailbox.items[cell].store(item, SeqCst);
        mailbox.link(self.lane, self.last).store(cell as u64 + 1, SeqCst);
        self.last = Some(cell);
        self.put.push(item);
        Put::Linked
    }

    fn finish(&mut self, mailbox: &Mailbox) {
        mailbox.link(self.lane, self.last).store(END, SeqCst);
        self.stage = LaneStage::Ended
    }
}

/// A consumer's note on an item.
#[derive(Clone, Copy)]
enum Note {
    Took(u64),
    Lost(u32),
    Undecided,
}

/// The result of a poll.
#[derive(Clone, Copy)]
enum Poll {
    Noted(Note),
    Nothing,
    Ended,
    Spent,
    NoLane,
}

/// What a consumer does next on a lane. It loads the link of the last cell that it met, or the head. Or it goes on with a
/// claim on a cell. Or it loads the item of a cell that it has won.
#[derive(Clone, Copy)]
enum Place {
    Before(Option<usize>),
    At { cell: usize, claim: Claim },
    Won(usize),
}

/// A consumer's place on a lane, and its notes there.
struct Lane {
    place: Place,
    notes: Vec<Note>,
}

impl Lane {
    /// Loads the item of a cell that the consumer has won, and notes that it took it.
    #[inline]
    fn take(&mut self, mailbox: &Mailbox, cell: usize) -> Poll {
        self.noted(cell, Note::Took(mailbox.items[cell].load(SeqCst)))
    }

    /// Notes this on the item of the cell, and goes on past the cell.
    #[inline]
    fn noted(&mut self, cell: usize, note: Note) -> Poll {
        self.place = Place::Before(Some(cell));
        self.notes.push(note);
        Poll::Noted(note)
    }
}

struct Consumer {
    number: u32,
    lanes: Vec<Lane>,
}

impl Consumer {
    fn new(number: u32) -> Consumer {
        let lane = || Lane { place: Place::Before(None), notes: Vec::with_capacity(CELLS) };
        Consumer { number, lanes: (0..LANES).map(|_| lane()).collect() }
    }

    /// Makes accesses on a lane until one has a result, or the budget is used up. It goes through whole pairs by `run` as
    /// long as the budget suffices for one more, and then goes on access by access.
    fn poll(&mut self, mailbox: &Mailbox, p: usize, budget: u64, source: &mut Source) -> Poll {
        let Some(lane) = self.lanes.get_mut(p) else {
            return Poll::NoLane;
        };
        if budget == 0 {
            return Poll::Spent;
        }
        let (cell, mut claim, mut left) = match lane.place {
            Place::At { cell, claim } => (cell, claim, budget),
            Place::Won(cell) => return lane.take(mailbox, cell),
            Place::Before(last) => match mailbox.link(p, last).load(SeqCst) {
                0 => return Poll::Nothing,
                END => return Poll::Ended,
                link => {
                    let cell = link as usize - 1;
                    (cell, Claim::new(mailbox.layout, self.number, cell), budget - 1)
                }
            },
        };
        left = claim.run(mailbox.layout, &mailbox.claims, source, left);
        match claim.stage() {
            Stage::Going => {}
            Stage::Won => return lane.take(mailbox, cell),
            Stage::Lost(winner) => return lane.noted(cell, Note::Lost(winner)),
            Stage::Undecided => return lane.noted(cell, Note::Undecided),
        }
        for left in (0..left).rev() {
            match claim.step(mailbox.layout, &mailbox.claims, source.word()) {
                Stage::Going => {}
                Stage::Won if left == 0 => {
                    lane.place = Place::Won(cell);
                    return Poll::Spent;
                }
                Stage::Won => return lane.take(mailbox, cell),
                Stage::Lost(winner) => return lane.noted(cell, Note::Lost(winner)),
                Stage::Undecided => return lane.noted(cell, Note::Undecided),
            }
        }
        lane.place = Place::At { cell, claim };
        Poll::Spent
    }
}

/// Makes `times` mailboxes, one after the other. Each is filled, and then polled to its end by each consumer.
pub fn mailboxes(layout: &Layout, times: u64) -> Post {
    let mut source = Source::new();
    let mut post = Post::default();
    for time in 0..times {
        let mailbox = Mailbox::new(layout);
        post.items += fill(&mailbox, time * CELLS as u64);
        for number in 0..layout.consumers {
            read(&mailbox, &mut Consumer::new(number), &mut source, &mut post)
        }
    }
    post
}

/// Makes `times` mailboxes, one after the other. Each is filled, and then each consumer takes from it up to the end.
pub fn taken(layout: &Layout, times: u64) -> Post {
    let mut post = Post::default();
    for time in 0..times {
        let mailbox = Mailbox::new(layout);
        post.items += fill(&mailbox, time * CELLS as u64);
        for number in 0..layout.consumers {
            take_all(&mailbox, &mut Taker::new(number), &mut post)
        }
    }
    post
}

/// Makes `times` mailboxes, and puts an item in each cell. After each put each consumer takes once.
pub fn passed(layout: &Layout, times: u64) -> Post {
    let mut post = Post::default();
    for time in 0..times {
        let mailbox = Mailbox::new(layout);
        let mut producer = Producer::new(0);
        let mut takers: Vec<_> = (0..layout.consumers).map(Taker::new).collect();
        for number in 0..CELLS as u64 {
            if producer.put(&mailbox, time * CELLS as u64 + number) == Put::Linked {
                post.items += 1
            }
            for taker in &mut takers {
                if let Take::Took(item) = taker.take(&mailbox, 0, u64::MAX) {
                    post.notes += 1;
                    post.taken += item
                }
            }
        }
    }
    post
}

/// Takes from the lane up to its end.
fn take_all(mailbox: &Mailbox, taker: &mut Taker, post: &mut Post) {
    while let Take::Took(item) = taker.take(mailbox, 0, u64::MAX) {
        post.notes += 1;
        post.taken += item
    }
}

/// Makes `times` mailboxes with their producers, and nothing else.
pub fn mailboxes_alone(layout: &Layout, times: u64) -> Post {
    for _ in 0..times {
        black_box((Mailbox::new(layout), Producer::new(0)));
    }
    Post::default()
}

/// Makes `times` mailboxes. In each a producer puts an item in each cell, and nobody takes one.
pub fn puts(layout: &Layout, times: u64) -> Post {
    let mut post = Post::default();
    for time in 0..times {
        let mailbox = Mailbox::new(layout);
        post.items += put_all(&mailbox, &mut Producer::new(0), time * CELLS as u64)
    }
    post
}

/// Puts an item in each cell, numbered from `first`, and ends the lane. Returns the number of items.
fn fill(mailbox: &Mailbox, first: u64) -> u64 {
    let mut producer = Producer::new(0);
    let linked = put_all(mailbox, &mut producer, first);
    producer.finish(mailbox);
    linked
}

/// Puts an item in each cell, numbered from `first`. Returns how many items were linked.
fn put_all(mailbox: &Mailbox, producer: &mut Producer, first: u64) -> u64 {
    let mut linked = 0;
    for number in 0..CELLS as u64 {
        if producer.put(mailbox, first + number) == Put::Linked {
            linked += 1
        }
    }
    linked
}

/// Polls the lane up to its end.
fn read(mailbox: &Mailbox, consumer: &mut Consumer, source: &mut Source, post: &mut Post) {
    loop {
        match consumer.poll(mailbox, 0, u64::MAX, source) {
            Poll::Noted(note) => {
                post.notes += 1;
                if let Note::Took(item) = note {
                    post.taken += item
                }
            }
            Poll::Spent => {}
            Poll::Nothing | Poll::Ended | Poll::NoLane => return,
        }
    }
}
