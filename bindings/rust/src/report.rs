//! The report that a mailbox makes at its end.
use std::fmt;

/// What became of all items of a mailbox.
///
/// The main theorem says of it: one assignment gives each item to at most one consumer. A consumer took exactly the items
/// assigned to it, and all other items are left.
///
/// Its `Debug` shows how many values of a lane are left, and not the values. So `T` needs no `Debug`.
#[derive(Clone, PartialEq, Eq, Hash)]
#[must_use = "the values that nobody took are in it"]
#[non_exhaustive]
pub struct Report<T> {
    /// What became of each lane, in the order of lanes.
    pub lanes: Vec<LaneReport<T>>,
    /// The diary of each consumer on each lane: first those of consumer 0, by lanes, then those of consumer 1, and so on.
    pub diaries: Vec<Diary>,
}

/// What became of one lane.
#[derive(Clone, PartialEq, Eq, Hash)]
#[non_exhaustive]
pub struct LaneReport<T> {
    /// How many items were put.
    pub put: usize,
    /// Whether its producer was issued and has ended the lane.
    pub ended: bool,
    /// The values that nobody took, in the order put. Nobody can take them any more, so they are yours.
    pub left: Vec<T>,
}

/// The notes of one consumer on one lane, and whether its claim on the next item is begun.
#[derive(Clone, PartialEq, Eq, Hash, Debug)]
#[non_exhaustive]
pub struct Diary {
    /// The consumer's number, from 0 on.
    pub consumer: usize,
    /// The lane, from 0 on.
    pub lane: usize,
    /// Its notes on the items of the lane, in the order put: `notes[i]` is on the item at place `i`, from 0 on.
    pub notes: Vec<Note>,
    /// Whether it had begun to compete for the next item, on which it has no note.
    pub begun: bool,
}

/// How a consumer's claim on an item ended.
#[derive(Clone, Copy, PartialEq, Eq, Hash, Debug)]
pub enum Note {
    /// It took the item.
    Took,
    /// No consumer but the one with this number can have won the item.
    Lost(usize),
    /// It does not know who won the item, if anybody has.
    Undecided,
}

impl<T> Report<T> {
    /// The diary of this consumer on this lane, if the mailbox has both.
    #[must_use]
    pub fn diary(&self, consumer: usize, lane: usize) -> Option<&Diary> {
        self.diaries
            .iter()
            .find(|diary| diary.consumer == consumer && diary.lane == lane)
    }

    /// The number of the consumer that took the item at this place of the lane. Lanes and places count from 0. It is
    /// `None` for an item that is left, and if there is no such lane or place.
    ///
    /// The values in the lane's `left` are those of the items for which it is `None`, in the same order.
    #[must_use]
    pub fn taker(&self, lane: usize, place: usize) -> Option<usize> {
        self.diaries
            .iter()
            .filter(|diary| diary.lane == lane)
            .find(|diary| diary.notes.get(place) == Some(&Note::Took))
            .map(|diary| diary.consumer)
    }

    /// How many values this consumer took.
    #[must_use]
    pub fn taken_by(&self, consumer: usize) -> usize {
        self.diaries
            .iter()
            .filter(|diary| diary.consumer == consumer)
            .flat_map(|diary| &diary.notes)
            .filter(|note| **note == Note::Took)
            .count()
    }

    /// All values that nobody took: first those of lane 0, then those of lane 1, and so on, and of each in the order put.
    pub fn into_left(self) -> impl Iterator<Item = T> {
        self.lanes.into_iter().flat_map(|lane| lane.left)
    }
}

impl<T> fmt::Debug for Report<T> {
    fn fmt(&self, f: &mut fmt::Formatter<'_>) -> fmt::Result {
        f.debug_struct("Report")
            .field("lanes", &self.lanes)
            .field("diaries", &self.diaries)
            .finish()
    }
}

impl<T> fmt::Debug for LaneReport<T> {
    fn fmt(&self, f: &mut fmt::Formatter<'_>) -> fmt::Result {
        f.debug_struct("LaneReport")
            .field("put", &self.put)
            .field("ended", &self.ended)
            .field("left", &format_args!("[..; {}]", self.left.len()))
            .finish()
    }
}
