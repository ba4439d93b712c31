//! Where the words of a cell lie, and the quorums of each value, as masks of registers.

use std::sync::atomic::AtomicU64;

/// How many cells a mailbox has.
pub const CELLS: usize = 256;

/// How many consumers a layout has at most.
pub const MAX_CONSUMERS: usize = 64;

/// The quorum table of the ratifiers.
#[derive(Clone, Copy)]
pub enum Table {
    Unary,
    Bits,
    Middle,
}

impl Table {
    pub fn of(name: &str) -> Option<Table> {
        match name {
            "unary" => Some(Table::Unary),
            "bits" => Some(Table::Bits),
            "middle" => Some(Table::Middle),
            _ => None,
        }
    }

    /// Returns how many registers there are, and each value's write quorum. Its read quorum is all other registers.
    fn quorums(self, values: u32, width: u32) -> (u32, Vec<u64>) {
        match self {
            Table::Unary => (values, (0..values).map(|value| 1 << value).collect()),
            Table::Bits => {
                let quorum = |value: u32| (0..width).map(|i| 1 << (2 * i + (value >> i & 1))).sum();
                (2 * width, (0..values).map(quorum).collect())
            }
            Table::Middle => {
                let halves = |registers: u32| {
                    (0..1u64 << registers).filter(move |mask| mask.count_ones() == registers / 2)
                };
                let registers = (0..).find(|&it| halves(it).count() >= values as usize).unwrap();
                (registers, halves(registers).take(values as usize).collect())
            }
        }
    }
}

/// Whether a cell has two ratifiers before its pairs (`fast`), and a last object after them (`last`).
#[derive(Clone, Copy)]
pub struct Shape {
    pub fast: bool,
    pub last: bool,
}

impl Shape {
    pub fn of(name: &str) -> Option<Shape> {
        match name {
            "plain" => Some(Shape { fast: false, last: false }),
            "fast" => Some(Shape { fast: true, last: false }),
            "last" | "exchange" => Some(Shape { fast: false, last: true }),
            "fastlast" => Some(Shape { fast: true, last: true }),
            _ => None,
        }
    }
}

pub struct Layout {
    pub consumers: u32,
    pub fast: bool,
    pub last: bool,
    /// A consumer stores to a conciliator if a random word modulo this number is below its limit.
    pub modulus: u64,
    /// How many ratifiers a cell has.
    pub ratifiers: u32,
    pub ratifier_words: usize,
    pub cell_words: usize,
    /// How many accesses a claim makes at most on a pair, or a ratifier of the fast path, and a last object after it.
    pub most_on_pair: u64,
    pub write: [u64; MAX_CONSUMERS],
    pub read: [u64; MAX_CONSUMERS],
}

impl Layout {
    pub fn new(consumers: u32, pairs: u32, table: Table, shape: Shape) -> Layout {
        let width = u64::BITS - u64::from(consumers - 1).leading_zeros();
        let (registers, quorums) = table.quorums(consumers, width);
        let all = u64::MAX.checked_shr(u64::BITS - registers).unwrap_or(0);
        let (mut write, mut read) = ([0; MAX_CONSUMERS], [0; MAX_CONSUMERS]);
        for (value, quorum) in quorums.into_iter().enumerate() {
            write[value] = quorum;
            read[value] = all & !quorum;
        }
        let Shape { fast, last } = shape;
        let first = if fast { 2 } else { 0 };
        let ratifiers = first + pairs;
        let ratifier_words = 1 + registers as usize;
        Layout {
            consumers,
            fast,
            last,
            modulus: 1 << (width + 1),
            ratifiers,
            ratifier_words,
            cell_words: ratifiers as usize * ratifier_words + pairs as usize + usize::from(last),
            // width + 4 on a conciliator, 1 on each register of a ratifier, 2 on its proposal, 1 on a last object.
            most_on_pair: u64::from(width) + 4 + u64::from(registers) + 2 + 1,
            write,
            read,
        }
    }

    /// Returns the words for the claims on all cells, all 0.
    pub fn atomic_words(&self) -> Vec<AtomicU64> {
        atomic_zeros(CELLS * self.cell_words)
    }
}

/// How many words are written at a time: 1,920 bytes, as the kit's libraries do it. From 2,048 bytes on the C library
/// fills memory by one instruction that repeats, and callgrind counts that once for each byte.
const PIECE: usize = 240;

/// Returns so many words for threads to share, all 0.
pub fn atomic_zeros(count: usize) -> Vec<AtomicU64> {
    let mut words = Vec::with_capacity(count);
    while words.len() < count {
        let piece = PIECE.min(count - words.len());
        words.extend((0..piece).map(|_| AtomicU64::new(0)));
    }
    words
}
