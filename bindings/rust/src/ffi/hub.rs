//! A hub of the archive, with its mailbox.
use super::calls::{self, excluded, expect_done, hz_consumer_new, hz_gather, hz_mailbox_new};
use super::calls::{Missing, Setup, hz_poll, hz_producer_new, hz_take, hz_take_back, number};
use super::handle::Handle;
use super::parts::{Call, Consumer, Producer};
use super::report::{read_diaries, read_lanes};
use super::word::owns;
use crate::errors::BuildError;
use crate::report::Report;
use std::cell::Cell;
use std::marker::PhantomData;
use std::sync::atomic::{AtomicU64, Ordering};

/// The number of the next mailbox. No process makes 2^64 of them.
static NUMBERS: AtomicU64 = AtomicU64::new(0);

/// A mailbox with its hub. `Word::pack` of a `T` made the word of each of its items.
pub(crate) struct Hub<T> {
    handle: Handle,
    /// The shorter call of a consumer for an item that is not lost. If claims have pairs, that is a poll.
    shortest: Call,
    values: PhantomData<Cell<T>>,
}

/// Why there is no report.
pub(crate) enum Refusal {
    /// This many producers and consumers were not returned.
    Missing(usize, usize),
    /// The report wants more memory than there is.
    NoMemory,
}

/// Why no producer or consumer was issued.
pub(crate) enum NotIssued {
    /// As many as the mailbox was built for were issued.
    AllGiven,
    /// The producer or consumer wants more memory than there is.
    NoMemory,
}

impl<T> Hub<T> {
    pub(crate) fn new(setup: &Setup) -> Result<Hub<T>, BuildError> {
        // (`Relaxed` suffices: no two of these steps return one number, in any order, and the number orders nothing else)
        let id = NUMBERS.fetch_add(1, Ordering::Relaxed);
        let mut handle = Handle::empty();
        // SAFETY: the rules of calls.
        match unsafe { hz_mailbox_new(id, setup, &mut handle) } {
            calls::DONE => Ok(Hub {
                handle,
                shortest: if setup.pairs == 0 { hz_take } else { hz_poll },
                values: PhantomData,
            }),
            calls::NO_MEMORY => Err(BuildError::NoMemory),
            calls::BAD_PRODUCERS => Err(BuildError::BadProducers),
            calls::BAD_CONSUMERS => Err(BuildError::BadConsumers),
            calls::BAD_CELLS => Err(BuildError::BadCells),
            calls::BAD_PAIRS => Err(BuildError::BadPairs),
            other => excluded("hz_mailbox_new", other),
        }
    }

    /// The producer of the next lane, and the lane.
    pub(crate) fn producer(&mut self) -> Result<(Producer<T>, usize), NotIssued> {
        let (mut handle, mut lane) = (Handle::empty(), 0);
        // SAFETY: the rules of calls.
        let code = unsafe { hz_producer_new(&mut self.handle, &mut handle, &mut lane) };
        issued("hz_producer_new", code)?;
        let producer = Producer {
            handle,
            values: PhantomData,
        };
        Ok((producer, number(lane)))
    }

    /// The consumer of the next number, with random words from this seed, and the number.
    pub(crate) fn consumer(&mut self, seed: &[u8; 32]) -> Result<(Consumer<T>, usize), NotIssued> {
        let (mut handle, mut given) = (Handle::empty(), 0);
        // SAFETY: the rules of calls.
        let code = unsafe { hz_consumer_new(&mut self.handle, seed, &mut handle, &mut given) };
        issued("hz_consumer_new", code)?;
        let consumer = Consumer {
            handle,
            shortest: self.shortest,
            values: PhantomData,
        };
        Ok((consumer, number(given)))
    }

    /// Takes a producer of this mailbox back.
    pub(crate) fn take_producer(&mut self, producer: &mut Producer<T>) {
        self.take_back(&mut producer.handle);
    }

    /// Takes a consumer of this mailbox back.
    pub(crate) fn take_consumer(&mut self, consumer: &mut Consumer<T>) {
        self.take_back(&mut consumer.handle);
    }

    fn take_back(&mut self, part: &mut Handle) {
        // SAFETY: the rules of calls.
        let code = unsafe { hz_take_back(&mut self.handle, part) };
        // (each returns once, and to its own hub)
        expect_done("hz_take_back", code);
    }

    /// Ends the mailbox and makes the report, with the values that are left. After that the hub leads to nothing.
    pub(crate) fn gather(&mut self) -> Result<Report<T>, Refusal> {
        let mut report = self.end()?;
        let diaries = read_diaries(&mut report);
        // SAFETY: all words of this mailbox are of values of `T`, and it has ended now. Its hub leads to nothing now, so
        // no other report of it is read.
        let lanes = unsafe { read_lanes(report) };
        Ok(Report { lanes, diaries })
    }

    /// Ends the mailbox. The handle leads to its report, and the hub to nothing now.
    fn end(&mut self) -> Result<Handle, Refusal> {
        let (mut report, mut missing) = (Handle::empty(), Missing::default());
        // SAFETY: the rules of calls.
        match unsafe { hz_gather(&mut self.handle, &mut report, &mut missing) } {
            calls::DONE => Ok(report),
            calls::MISSING => Err(Refusal::Missing(
                missing.producers as usize,
                missing.consumers as usize,
            )),
            calls::NO_MEMORY => Err(Refusal::NoMemory),
            other => excluded("hz_gather", other),
        }
    }
}

/// A mailbox that nobody gathered drops what is inside. If there is no memory for the report, the values leak. If
/// they need no drop, no report is made.
impl<T> Drop for Hub<T> {
    fn drop(&mut self) {
        if owns::<T>() && self.handle.is_full() {
            if let Ok(report) = self.end() {
                // SAFETY: as in `gather`. Nobody wants the diaries, so they are not read.
                drop(unsafe { read_lanes::<T>(report) });
            }
        }
    }
}

/// What the code says of a producer or consumer that is asked for.
fn issued(call: &str, code: u32) -> Result<(), NotIssued> {
    match code {
        calls::DONE => Ok(()),
        calls::ALL_GIVEN => Err(NotIssued::AllGiven),
        calls::NO_MEMORY => Err(NotIssued::NoMemory),
        other => excluded(call, other),
    }
}
