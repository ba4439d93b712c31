//! The errors that calls of a mailbox return.
use crate::mailbox::Mailbox;
use std::error::Error;
use std::fmt;

/// Why no mailbox was built. If several numbers are out of range, the error is the first of these.
#[derive(Clone, Copy, PartialEq, Eq, Hash, Debug)]
#[non_exhaustive]
pub enum BuildError {
    /// The number of producers is not 1 to 16.
    BadProducers,
    /// The number of consumers is not 1 to 64.
    BadConsumers,
    /// There are more than 2^24 cells.
    BadCells,
    /// The number of pairs is not 1 to 8. It never comes with [`Shape::Exchange`](crate::Shape::Exchange).
    BadPairs,
    /// There is not enough memory.
    NoMemory,
}

impl fmt::Display for BuildError {
    fn fmt(&self, f: &mut fmt::Formatter<'_>) -> fmt::Result {
        f.write_str(match self {
            BuildError::BadProducers => "the number of producers is not 1 to 16",
            BuildError::BadConsumers => "the number of consumers is not 1 to 64",
            BuildError::BadCells => "the number of cells is above 2^24",
            BuildError::BadPairs => "the number of pairs is not 1 to 8",
            BuildError::NoMemory => "there is not enough memory for the mailbox",
        })
    }
}

impl Error for BuildError {}

/// Why no producer or consumer was issued. The number of one that was dropped is not issued again.
#[derive(Clone, Copy, PartialEq, Eq, Hash, Debug)]
#[non_exhaustive]
pub enum IssueError {
    /// All producers of the mailbox were issued. This is how many it was built for
    /// ([`Builder::producers`](crate::Builder::producers)).
    AllProducersGiven(usize),
    /// All consumers of the mailbox were issued. This is how many it was built for
    /// ([`Builder::consumers`](crate::Builder::consumers)).
    AllConsumersGiven(usize),
    /// There is not enough memory.
    NoMemory,
}

impl fmt::Display for IssueError {
    fn fmt(&self, f: &mut fmt::Formatter<'_>) -> fmt::Result {
        match self {
            IssueError::AllProducersGiven(given) => {
                write!(
                    f,
                    "the mailbox was built for {given} producers, and all were given"
                )
            }
            IssueError::AllConsumersGiven(given) => {
                write!(
                    f,
                    "the mailbox was built for {given} consumers, and all were given"
                )
            }
            IssueError::NoMemory => f.write_str("there is not enough memory for the part"),
        }
    }
}

impl Error for IssueError {}

/// A value that was not put, since no cell of the mailbox is left. No cell becomes free later.
///
/// It is `Send` and `Sync` only if the value is. So if the value is, say, a boxed closure, `?` into a
/// `Box<dyn Error + Send + Sync>` needs a `map_err` before it.
#[derive(Clone, Copy, PartialEq, Eq, Hash)]
pub struct Full<T>(pub T);

impl<T> fmt::Debug for Full<T> {
    fn fmt(&self, f: &mut fmt::Formatter<'_>) -> fmt::Result {
        f.write_str("Full(..)")
    }
}

impl<T> fmt::Display for Full<T> {
    fn fmt(&self, f: &mut fmt::Formatter<'_>) -> fmt::Result {
        f.write_str("the mailbox has no cell left")
    }
}

impl<T> Error for Full<T> {}

/// Why [`Mailbox::gather`] made no report. The error has the mailbox, as it was.
#[non_exhaustive]
pub enum GatherError<T> {
    /// A producer or consumer was not returned: it was not dropped yet, or it was forgotten.
    #[non_exhaustive]
    Missing {
        /// How many producers were not returned.
        producers: usize,
        /// How many consumers were not returned.
        consumers: usize,
        /// The mailbox, as it was.
        mailbox: Mailbox<T>,
    },
    /// There is not enough memory for the report.
    NoMemory(Mailbox<T>),
}

impl<T> GatherError<T> {
    /// Returns the mailbox, as it was.
    pub fn into_mailbox(self) -> Mailbox<T> {
        match self {
            GatherError::Missing { mailbox, .. } | GatherError::NoMemory(mailbox) => mailbox,
        }
    }
}

impl<T> fmt::Debug for GatherError<T> {
    fn fmt(&self, f: &mut fmt::Formatter<'_>) -> fmt::Result {
        match self {
            GatherError::Missing {
                producers,
                consumers,
                ..
            } => f
                .debug_struct("Missing")
                .field("producers", producers)
                .field("consumers", consumers)
                .finish_non_exhaustive(),
            GatherError::NoMemory(_) => f.write_str("NoMemory(..)"),
        }
    }
}

impl<T> fmt::Display for GatherError<T> {
    fn fmt(&self, f: &mut fmt::Formatter<'_>) -> fmt::Result {
        match self {
            GatherError::Missing {
                producers,
                consumers,
                ..
            } => write!(f, "producers out: {producers}, consumers out: {consumers}"),
            GatherError::NoMemory(_) => f.write_str("there is not enough memory for the report"),
        }
    }
}

impl<T> Error for GatherError<T> {}
