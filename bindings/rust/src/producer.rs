//! The producer of a mailbox.
use crate::errors::Full;
use crate::ffi;
use crate::mailbox::Home;
use std::fmt;
use std::sync::Arc;

/// A producer, which puts values into a lane of its own. [`Mailbox::producer`](crate::Mailbox::producer) issues it.
///
/// When it is dropped, also by a panic, it ends its lane and returns to its mailbox. It may go to another thread, but no
/// two threads share it, and it is not `Clone`.
#[must_use = "its drop ends its lane"]
pub struct Producer<T> {
    lane: usize,
    pub(crate) part: ffi::Producer<T>,
    home: Arc<Home<T>>,
}

impl<T> Producer<T> {
    pub(crate) fn new(lane: usize, part: ffi::Producer<T>, home: Arc<Home<T>>) -> Producer<T> {
        Producer { lane, part, home }
    }

    /// The number of its lane, from 0 on.
    #[must_use]
    pub fn lane(&self) -> usize {
        self.lane
    }

    /// Puts a value at the end of the lane. It waits for nobody.
    ///
    /// ```
    /// # fn main() -> Result<(), Box<dyn std::error::Error>> {
    /// use hazbultra::{Full, Mailbox};
    ///
    /// let mailbox = Mailbox::builder().cells(1).build()?;
    /// let mut producer = mailbox.producer()?;
    /// assert_eq!(producer.put("one"), Ok(()));
    /// assert_eq!(producer.put("two"), Err(Full("two")));
    /// # Ok(())
    /// # }
    /// ```
    ///
    /// The first value put on a lane has place 0, the next place 1. [`Report::taker`](crate::Report::taker) takes a place.
    ///
    /// The box of a larger value comes from Rust's allocator, which aborts the program if there is no memory for it.
    ///
    /// # Errors
    /// No cell of the mailbox is left, and none becomes free later. The error has the value.
    pub fn put(&mut self, value: T) -> Result<(), Full<T>> {
        self.part.put(value).map_err(Full)
    }

    /// Ends the lane and returns to the mailbox. A drop does the same.
    pub fn finish(self) {}
}

impl<T> Drop for Producer<T> {
    fn drop(&mut self) {
        self.part.finish();
        self.home.hub().take_producer(&mut self.part);
    }
}

impl<T> fmt::Debug for Producer<T> {
    fn fmt(&self, f: &mut fmt::Formatter<'_>) -> fmt::Result {
        f.debug_struct("Producer")
            .field("lane", &self.lane)
            .finish_non_exhaustive()
    }
}
