//! The settings of a mailbox, and how it is built from them.
use crate::errors::BuildError;
use crate::ffi::{BITS, MIDDLE, Setup, UNARY};
use crate::mailbox::Mailbox;
use crate::seeds;
use std::fmt;
use std::marker::PhantomData;

/// The quorum table of the ratifiers in each cell. All promises hold with each. How many accesses polls make differs.
#[derive(Clone, Copy, PartialEq, Eq, Hash, Debug, Default)]
#[non_exhaustive]
pub enum Table {
    /// A ratifier has one register for each consumer.
    Unary,
    /// A ratifier has two registers for each bit of a consumer's number. It is the default.
    #[default]
    Bits,
    /// A ratifier has the fewest registers that suffice. Take this table for more than four consumers.
    Middle,
}

/// By what objects consumers compete for the item of a cell. If you want pairs, take `FastLast` for up to three consumers,
/// and `Last` for more. The glossary of `docs/MODEL.md` says what each object does.
#[derive(Clone, Copy, PartialEq, Eq, Hash, Debug, Default)]
#[non_exhaustive]
pub enum Shape {
    /// Pairs of a conciliator and a ratifier alone. They need loads and stores only. A poll may be undecided.
    Plain,
    /// Two ratifiers before the pairs: a consumer that comes alone makes fewer accesses. A poll may be undecided.
    Fast,
    /// A last object after the pairs, for one compare-exchange of each consumer that comes to it: no poll is undecided.
    Last,
    /// Two ratifiers before the pairs, and a last object after them: no poll is undecided.
    FastLast,
    /// A last object alone: each claim on an item is one compare-exchange, and no poll is undecided. It takes the fewest
    /// instructions and the least memory. It has no pairs and needs no table. It is the default.
    #[default]
    Exchange,
}

/// The settings of a mailbox. [`Mailbox::builder`] and [`Mailbox::numbers`] return a builder. [`build`](Builder::build)
/// refuses a number out of range. It may be called more than once: each call builds a mailbox.
#[must_use = "it builds no mailbox until `build` is called"]
pub struct Builder<T> {
    producers: usize,
    consumers: usize,
    cells: usize,
    pairs: usize,
    table: Table,
    shape: Shape,
    seed: Option<[u8; 32]>,
    values: PhantomData<fn(T) -> T>,
}

impl<T> Builder<T> {
    pub(crate) fn new() -> Builder<T> {
        Builder {
            producers: 1,
            consumers: 1,
            cells: 256,
            pairs: 4,
            table: Table::default(),
            shape: Shape::default(),
            seed: None,
            values: PhantomData,
        }
    }

    /// Sets the number of producers, 1 to 16. Each has a lane of its own. The default is 1.
    pub fn producers(self, producers: usize) -> Self {
        Builder { producers, ..self }
    }

    /// Sets the number of consumers, 1 to 64. The default is 1.
    ///
    /// ```
    /// # fn main() -> Result<(), Box<dyn std::error::Error>> {
    /// use std::thread;
    ///
    /// let workers = thread::available_parallelism()?.get().min(64);
    /// let mailbox = hazbultra::Mailbox::<String>::builder().consumers(workers).build()?;
    /// # Ok(())
    /// # }
    /// ```
    pub fn consumers(self, consumers: usize) -> Self {
        Builder { consumers, ..self }
    }

    /// Sets the number of cells, 0 to 2^24. Each takes one item, and none is used again. The default is 256.
    ///
    /// Memory grows with it: each cell takes some 16 bytes for each consumer, and the words of the cell itself.
    pub fn cells(self, cells: usize) -> Self {
        Builder { cells, ..self }
    }

    /// Sets the number of pairs of a conciliator and a ratifier in each cell, 1 to 8. The default is 4. `Exchange` has none.
    pub fn pairs(self, pairs: usize) -> Self {
        Builder { pairs, ..self }
    }

    /// Sets the quorum table. The default is [`Table::Bits`]. With [`Shape::Exchange`] it makes no difference.
    pub fn table(self, table: Table) -> Self {
        Builder { table, ..self }
    }

    /// Sets the shape of each cell. The default is [`Shape::Exchange`].
    pub fn shape(self, shape: Shape) -> Self {
        Builder { shape, ..self }
    }

    /// Sets the seed of `ChaCha8`, from which each consumer draws random words, out of a stream of its own. There are no
    /// other random words. So with one seed equal calls in one thread go the same way. If you set no seed, each mailbox
    /// gets one from the system, as hash maps do. With [`Shape::Exchange`] random words make no difference.
    pub fn seed(self, seed: [u8; 32]) -> Self {
        Builder {
            seed: Some(seed),
            ..self
        }
    }
}

impl<T: Send> Builder<T> {
    /// Builds a mailbox.
    ///
    /// [`BuildError::NoMemory`] covers the archive's memory alone. The `Arc` that producers and consumers share comes from
    /// Rust's allocator, which aborts the program if there is no memory.
    ///
    /// # Errors
    /// A number is out of range, or there is not enough memory: see [`BuildError`].
    pub fn build(&self) -> Result<Mailbox<T>, BuildError> {
        let setup = Setup {
            producers: self.producers as u64,
            consumers: self.consumers as u64,
            cells: self.cells as u64,
            pairs: match (self.shape, self.pairs) {
                (Shape::Exchange, _) => 0,
                // (with 0 pairs the archive would make `Exchange` of `Last`. So a number that it refuses stands for 0)
                (_, 0) => u64::MAX,
                (_, pairs) => pairs as u64,
            },
            table: match self.table {
                Table::Unary => UNARY,
                Table::Bits => BITS,
                Table::Middle => MIDDLE,
            },
            fast: matches!(self.shape, Shape::Fast | Shape::FastLast),
            last: matches!(self.shape, Shape::Last | Shape::FastLast | Shape::Exchange),
        };
        let seed = self.seed.unwrap_or_else(seeds::from_system);
        Mailbox::new(&setup, seed)
    }
}

// (written by hand, since a derived one would want `T: Clone`)
impl<T> Clone for Builder<T> {
    fn clone(&self) -> Self {
        Builder { ..*self }
    }
}

impl<T> fmt::Debug for Builder<T> {
    fn fmt(&self, f: &mut fmt::Formatter<'_>) -> fmt::Result {
        f.debug_struct("Builder")
            .field("producers", &self.producers)
            .field("consumers", &self.consumers)
            .field("cells", &self.cells)
            .field("pairs", &self.pairs)
            .field("table", &self.table)
            .field("shape", &self.shape)
            .field("seed", &self.seed)
            .finish_non_exhaustive()
    }
}
