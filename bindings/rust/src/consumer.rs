//! The consumer of a mailbox.
use crate::ffi;
use crate::mailbox::Home;
use std::fmt;
use std::iter::FusedIterator;
use std::sync::Arc;

/// The result of a poll or a take. Its `Debug` shows no value, so `T` needs no `Debug`.
#[derive(Clone, Copy, PartialEq, Eq, Hash)]
#[must_use = "a value that was taken is in it"]
pub enum Poll<T> {
    /// This consumer has won the item, and this is its value. Nobody else gets it.
    Took(T),
    /// No consumer but the one with this number can win the item. Perhaps that one has not won it yet, or never will.
    Lost(usize),
    /// This consumer does not know who has won the item, if anybody has. It comes only with the shapes
    /// [`Plain`](crate::Shape::Plain) and [`Fast`](crate::Shape::Fast).
    Undecided,
    /// At one moment of the call this consumer had met all items linked on the lane, and the lane had not ended. By default
    /// all of them were taken or won by then.
    Nothing,
    /// The lane has ended, and has no further item.
    Ended,
    /// The budget of a `poll_within` or `take_within` was used up. The next poll of the lane goes on from there.
    Spent,
    /// The mailbox has no such lane.
    NoLane,
}

impl<T> Poll<T> {
    /// The value that was taken, if one was.
    pub fn taken(self) -> Option<T> {
        match self {
            Poll::Took(value) => Some(value),
            _ => None,
        }
    }
}

impl<T> fmt::Debug for Poll<T> {
    fn fmt(&self, f: &mut fmt::Formatter<'_>) -> fmt::Result {
        match self {
            Poll::Took(_) => f.write_str("Took(..)"),
            Poll::Lost(consumer) => f.debug_tuple("Lost").field(consumer).finish(),
            Poll::Undecided => f.write_str("Undecided"),
            Poll::Nothing => f.write_str("Nothing"),
            Poll::Ended => f.write_str("Ended"),
            Poll::Spent => f.write_str("Spent"),
            Poll::NoLane => f.write_str("NoLane"),
        }
    }
}

/// The result of [`Consumer::sweep`]. Its `Debug` shows no value, so `T` needs no `Debug`.
#[derive(Clone, Copy, PartialEq, Eq, Hash)]
#[must_use = "a value that was taken is in it"]
pub enum Sweep<T> {
    /// This consumer took this value.
    Took(T),
    /// It found no further item on any lane, and has not met the end of each lane.
    Nothing,
    /// All lanes have ended, and this consumer has met the end of each.
    Ended,
}

impl<T> Sweep<T> {
    /// The value that was taken, if one was.
    pub fn taken(self) -> Option<T> {
        match self {
            Sweep::Took(value) => Some(value),
            _ => None,
        }
    }
}

impl<T> fmt::Debug for Sweep<T> {
    fn fmt(&self, f: &mut fmt::Formatter<'_>) -> fmt::Result {
        f.write_str(match self {
            Sweep::Took(_) => "Took(..)",
            Sweep::Nothing => "Nothing",
            Sweep::Ended => "Ended",
        })
    }
}

/// A consumer, which competes for the items of all lanes. [`Mailbox::consumer`](crate::Mailbox::consumer) issues it.
///
/// When it is dropped, also by a panic, it returns to its mailbox. It may go to another thread, but no two threads share
/// it, and it is not `Clone`.
///
/// If its last poll of a lane was [`Poll::Spent`] and it is dropped then, the item that it competed for there may be left.
/// If it had won that item, no other consumer gets it. The report has each item that is left. In all other cases
/// a drop ends no claim midway. The number of a dropped consumer is not issued again.
///
/// A value that it took belongs to the caller. If the caller panics and drops the value, the report still says that it was
/// taken ([`Report::taker`](crate::Report::taker)).
#[must_use = "its drop returns it, and its number is not issued again"]
pub struct Consumer<T> {
    number: usize,
    /// The lane at which the next sweep begins, and how many lanes there are.
    next: usize,
    lanes: usize,
    /// Bit `lane` is set if this consumer has met the end of that lane. There are at most 16 lanes.
    ended: u64,
    pub(crate) part: ffi::Consumer<T>,
    home: Arc<Home<T>>,
}

impl<T> Consumer<T> {
    pub(crate) fn new(number: usize, part: ffi::Consumer<T>, home: Arc<Home<T>>) -> Consumer<T> {
        Consumer {
            number,
            next: 0,
            lanes: home.lanes,
            ended: 0,
            part,
            home,
        }
    }

    /// Its number, from 0 on. Other consumers find it in [`Poll::Lost`].
    #[must_use]
    pub fn number(&self) -> usize {
        self.number
    }

    /// Competes for the next item of a lane, until it knows the result. It waits for nobody, and never returns
    /// [`Poll::Spent`]. With the builder's default shape it makes at most 3 accesses. With
    /// [`Shape::FastLast`](crate::Shape::FastLast) it makes at most 31, 47, 63, 95 or 127 with 1, 2, 4, 16 or 64 consumers.
    /// An access is a load, store or exchange of one shared word.
    ///
    /// ```
    /// # fn main() -> Result<(), Box<dyn std::error::Error>> {
    /// use hazbultra::{Mailbox, Poll};
    ///
    /// let mailbox = Mailbox::builder().consumers(2).build()?;
    /// let mut producer = mailbox.producer()?;
    /// let (mut one, mut two) = (mailbox.consumer()?, mailbox.consumer()?);
    /// producer.put("work")?;
    /// producer.finish();
    ///
    /// assert_eq!(one.poll(0), Poll::Took("work"));
    /// assert_eq!(two.poll(0), Poll::Lost(0));
    /// assert_eq!(two.poll(0), Poll::Ended);
    /// assert_eq!(two.poll(1), Poll::NoLane);
    /// # Ok(())
    /// # }
    /// ```
    pub fn poll(&mut self, lane: usize) -> Poll<T> {
        self.poll_within(lane, u64::MAX)
    }

    /// Does what [`poll`](Consumer::poll) does, with at most `budget` accesses. If they bring no result, it returns
    /// [`Poll::Spent`], and the next poll of the lane goes on from there.
    pub fn poll_within(&mut self, lane: usize, budget: u64) -> Poll<T> {
        let polled = self.part.poll(lane as u64, budget);
        self.noted(lane, polled)
    }

    /// Takes the next item of a lane that it wins, past those that it loses. It waits for nobody, and never returns
    /// [`Poll::Lost`] or [`Poll::Spent`].
    ///
    /// ```
    /// # fn main() -> Result<(), Box<dyn std::error::Error>> {
    /// use hazbultra::{Mailbox, Poll};
    ///
    /// let mailbox = Mailbox::builder().consumers(2).build()?;
    /// let mut producer = mailbox.producer()?;
    /// let (mut one, mut two) = (mailbox.consumer()?, mailbox.consumer()?);
    /// producer.put("work")?;
    /// producer.put("more work")?;
    ///
    /// assert_eq!(one.take(0), Poll::Took("work"));
    /// assert_eq!(two.take(0), Poll::Took("more work"));
    /// assert_eq!(one.take(0), Poll::Nothing);
    /// # Ok(())
    /// # }
    /// ```
    pub fn take(&mut self, lane: usize) -> Poll<T> {
        match self.part.poll_or_take(lane as u64) {
            Poll::Took(value) => Poll::Took(value),
            polled => self.go_on(lane, polled),
        }
    }

    /// Goes on with a take whose first poll took nothing, and had this result. Returns the result of the take.
    #[inline(never)]
    fn go_on(&mut self, lane: usize, polled: Poll<T>) -> Poll<T> {
        match polled {
            Poll::Lost(_) => self.take_within(lane, u64::MAX),
            polled => self.noted(lane, polled),
        }
    }

    /// Does what [`take`](Consumer::take) does, or returns [`Poll::Spent`] after `most` accesses without a result.
    pub fn take_within(&mut self, lane: usize, most: u64) -> Poll<T> {
        let taken = self.part.take(lane as u64, most);
        self.noted(lane, taken)
    }

    /// Returns this result of a poll of the lane. If it is [`Poll::Ended`], it sets the lane's bit in `ended`.
    fn noted(&mut self, lane: usize, polled: Poll<T>) -> Poll<T> {
        if let Poll::Ended = polled {
            self.ended |= 1 << lane;
        }
        polled
    }

    /// Tries the lanes one after the other, until it takes an item or finds no further one on any lane. It never waits.
    ///
    /// It goes on past items that it loses. The first sweep begins with lane 0, a later one after the lane tried last.
    pub fn sweep(&mut self) -> Sweep<T> {
        let lanes = self.lanes;
        let mut quiet = 0;
        while quiet < lanes {
            let lane = self.next;
            self.next = if lane + 1 < lanes { lane + 1 } else { 0 };
            if self.ended >> lane & 1 == 1 {
                quiet += 1;
                continue;
            }
            let polled = match self.part.poll_or_take(lane as u64) {
                Poll::Took(value) => return Sweep::Took(value),
                polled => self.go_on(lane, polled),
            };
            match polled {
                Poll::Took(value) => return Sweep::Took(value),
                Poll::Nothing | Poll::Ended | Poll::NoLane => quiet += 1,
                Poll::Lost(_) | Poll::Undecided | Poll::Spent => quiet = 0,
            }
        }
        if self.ended.count_ones() as usize == lanes {
            Sweep::Ended
        } else {
            Sweep::Nothing
        }
    }

    /// Iterates over the values that it takes, until all lanes have ended. Each time it finds nothing on any lane it calls
    /// `idle`, and then looks again.
    ///
    /// It never sleeps by itself: that is what `idle` is for. [`std::thread::yield_now`] lets other threads go on.
    ///
    /// **It goes on for ever if a producer is never dropped or finished, or was never issued.**
    /// [`Mailbox::end_free_lanes`](crate::Mailbox::end_free_lanes) ends the lanes of those that were not issued.
    /// To stop early, call [`sweep`](Consumer::sweep) in a loop: an adapter as `take_while` drops the value that it rejects.
    ///
    /// ```
    /// # fn main() -> Result<(), Box<dyn std::error::Error>> {
    /// use std::thread;
    ///
    /// let mailbox = hazbultra::Mailbox::builder().build()?;
    /// let (mut producer, mut consumer) = (mailbox.producer()?, mailbox.consumer()?);
    /// let sum: u32 = thread::scope(|scope| {
    ///     scope.spawn(move || (1..=4).for_each(|n| producer.put(n).unwrap()));
    ///     consumer.values(thread::yield_now).sum()
    /// });
    /// assert_eq!(sum, 10);
    /// # Ok(())
    /// # }
    /// ```
    pub fn values<F: FnMut()>(&mut self, idle: F) -> Values<'_, T, F> {
        Values {
            consumer: self,
            idle,
        }
    }
}

impl<T> Drop for Consumer<T> {
    fn drop(&mut self) {
        self.home.hub().take_consumer(&mut self.part);
    }
}

impl<T> fmt::Debug for Consumer<T> {
    fn fmt(&self, f: &mut fmt::Formatter<'_>) -> fmt::Result {
        f.debug_struct("Consumer")
            .field("number", &self.number)
            .finish_non_exhaustive()
    }
}

/// An iterator over the values that a consumer takes. [`Consumer::values`] returns it.
#[must_use = "it does nothing until it is iterated over"]
pub struct Values<'a, T, F> {
    consumer: &'a mut Consumer<T>,
    idle: F,
}

impl<T, F: FnMut()> Iterator for Values<'_, T, F> {
    type Item = T;

    fn next(&mut self) -> Option<T> {
        loop {
            match self.consumer.sweep() {
                Sweep::Took(value) => return Some(value),
                Sweep::Nothing => (self.idle)(),
                Sweep::Ended => return None,
            }
        }
    }
}

impl<T, F: FnMut()> FusedIterator for Values<'_, T, F> {}

impl<T, F> fmt::Debug for Values<'_, T, F> {
    fn fmt(&self, f: &mut fmt::Formatter<'_>) -> fmt::Result {
        f.debug_struct("Values")
            .field("consumer", &self.consumer)
            .finish_non_exhaustive()
    }
}
