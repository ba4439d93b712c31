//! A mailbox, and what it shares with its producers and consumers.
use crate::builder::Builder;
use crate::consumer::Consumer;
use crate::errors::{BuildError, GatherError, IssueError};
use crate::ffi::{self, NotIssued, Refusal, Setup};
use crate::producer::Producer;
use crate::report::Report;
use std::fmt;
use std::sync::{Arc, Mutex, MutexGuard, PoisonError};

/// A mailbox for values of `T`. It issues producers and consumers, also to threads that share it by `&`, and makes the
/// report.
///
/// Each producer and consumer holds its own mailbox. So their calls need no mailbox as a parameter, and none can be used
/// with another mailbox.
///
/// If a mailbox is dropped without a gather, the values left inside are dropped as soon as its last producer and consumer
/// are dropped too. If there is something to drop, a report is made for that. If the archive gets no memory for the
/// report, they leak. The lists into which the report is read come from Rust's allocator, which aborts the program if there is no
/// memory.
///
/// If a producer or consumer is forgotten ([`std::mem::forget`]), or put into its own mailbox and left there, the whole
/// mailbox leaks.
#[must_use = "its drop drops what is left inside, as soon as its last producer and consumer are dropped"]
pub struct Mailbox<T> {
    home: Arc<Home<T>>,
}

/// What a mailbox shares with its producers and consumers. Only their issue, their return and the report take its lock.
pub(crate) struct Home<T> {
    hub: Mutex<ffi::Hub<T>>,
    seed: [u8; 32],
    pub(crate) lanes: usize,
    consumers: usize,
}

impl<T> Home<T> {
    /// Locks the hub. A thread that panicked with the lock left the hub whole, as it is between two calls.
    pub(crate) fn hub(&self) -> MutexGuard<'_, ffi::Hub<T>> {
        self.hub.lock().unwrap_or_else(PoisonError::into_inner)
    }
}

impl<T: Send> Mailbox<T> {
    /// Returns a builder of mailboxes for values of any type that is [`Send`]. A value of up to eight bytes, such as a
    /// number or a box, is an item as it is. Each other value is put in a box of its own.
    ///
    /// ```
    /// # fn main() -> Result<(), Box<dyn std::error::Error>> {
    /// let mailbox = hazbultra::Mailbox::builder().cells(10).build()?;
    /// let (mut producer, mut consumer) = (mailbox.producer()?, mailbox.consumer()?);
    /// producer.put(String::from("a letter"))?;
    /// assert_eq!(consumer.poll(0).taken().as_deref(), Some("a letter"));
    /// # Ok(())
    /// # }
    /// ```
    pub fn builder() -> Builder<T> {
        Builder::new()
    }
}

impl Mailbox<u64> {
    /// The [`builder`](Mailbox::builder) for numbers, which need no boxes. So a put asks for no memory.
    ///
    /// ```
    /// # fn main() -> Result<(), Box<dyn std::error::Error>> {
    /// let mailbox = hazbultra::Mailbox::numbers().build()?;
    /// let (mut producer, mut consumer) = (mailbox.producer()?, mailbox.consumer()?);
    /// producer.put(7)?;
    /// assert_eq!(consumer.poll(0).taken(), Some(7));
    /// # Ok(())
    /// # }
    /// ```
    pub fn numbers() -> Builder<u64> {
        Builder::new()
    }
}

impl<T> Mailbox<T> {
    pub(crate) fn new(setup: &Setup, seed: [u8; 32]) -> Result<Mailbox<T>, BuildError> {
        let home = Home {
            hub: Mutex::new(ffi::Hub::new(setup)?),
            seed,
            lanes: ffi::number(setup.producers),
            consumers: ffi::number(setup.consumers),
        };
        Ok(Mailbox {
            home: Arc::new(home),
        })
    }

    /// Issues the producer of the next lane, in order from lane 0 on.
    ///
    /// # Errors
    /// The producers of all lanes were issued (some may be dropped by now), or there is not enough memory.
    pub fn producer(&self) -> Result<Producer<T>, IssueError> {
        let home = &self.home;
        let (part, lane) = home.hub().producer().map_err(|why| match why {
            NotIssued::AllGiven => IssueError::AllProducersGiven(home.lanes),
            NotIssued::NoMemory => IssueError::NoMemory,
        })?;
        Ok(Producer::new(lane, part, Arc::clone(home)))
    }

    /// Issues the consumer of the next number, in order from 0 on.
    ///
    /// # Errors
    /// The consumers of all numbers were issued (some may be dropped by now), or there is not enough memory.
    pub fn consumer(&self) -> Result<Consumer<T>, IssueError> {
        let home = &self.home;
        let (part, number) = home.hub().consumer(&home.seed).map_err(|why| match why {
            NotIssued::AllGiven => IssueError::AllConsumersGiven(home.consumers),
            NotIssued::NoMemory => IssueError::NoMemory,
        })?;
        Ok(Consumer::new(number, part, Arc::clone(home)))
    }

    /// Ends each lane whose producer was not issued yet. After that no producer can be issued. [`Consumer::values`] ends
    /// only after all lanes have ended. So call this if you use fewer producers than the mailbox was built for.
    ///
    /// # Errors
    /// There is not enough memory. Then some of these lanes have not ended, and the call may be made again.
    pub fn end_free_lanes(&self) -> Result<(), IssueError> {
        loop {
            match self.producer() {
                Ok(producer) => producer.finish(),
                Err(IssueError::AllProducersGiven(_)) => return Ok(()),
                Err(why) => return Err(why),
            }
        }
    }

    /// Ends the mailbox and makes the report, which has the values that nobody took.
    ///
    /// [`GatherError::NoMemory`] covers the archive's memory alone. The lists of the report come from Rust's allocator,
    /// which aborts the program if there is no memory.
    ///
    /// ```
    /// # fn main() -> Result<(), Box<dyn std::error::Error>> {
    /// let mailbox = hazbultra::Mailbox::builder().build()?;
    /// let mut producer = mailbox.producer()?;
    /// producer.put("nobody comes for it")?;
    ///
    /// let error = mailbox.gather().expect_err("the producer is out");
    /// assert_eq!(error.to_string(), "producers out: 1, consumers out: 0");
    /// let mailbox = error.into_mailbox();
    ///
    /// drop(producer);
    /// let report = mailbox.gather()?;
    /// assert_eq!(report.lanes[0].left, ["nobody comes for it"]);
    /// # Ok(())
    /// # }
    /// ```
    ///
    /// # Errors
    /// A producer or consumer was not dropped, or there is not enough memory. The error has the mailbox, as it was.
    pub fn gather(self) -> Result<Report<T>, GatherError<T>> {
        let gathered = self.home.hub().gather();
        gathered.map_err(|why| match why {
            Refusal::Missing(producers, consumers) => GatherError::Missing {
                producers,
                consumers,
                mailbox: self,
            },
            Refusal::NoMemory => GatherError::NoMemory(self),
        })
    }
}

impl<T> fmt::Debug for Mailbox<T> {
    fn fmt(&self, f: &mut fmt::Formatter<'_>) -> fmt::Result {
        f.debug_struct("Mailbox").finish_non_exhaustive()
    }
}
