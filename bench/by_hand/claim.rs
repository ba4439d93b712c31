//! The claim of one consumer on one cell, made one access at a time.

use crate::layout::Layout;
use std::sync::atomic::AtomicU64;
use std::sync::atomic::Ordering::SeqCst;

/// Stores the value if the word is 0, and returns what the word held before.
#[inline]
pub fn exchange(word: &AtomicU64, value: u64) -> u64 {
    word.compare_exchange(0, value, SeqCst, SeqCst).unwrap_or_else(|found| found)
}

/// The stage of a claim: it goes on, or is won, lost to the consumer with this number, or undecided.
#[derive(Clone, Copy, PartialEq, Eq, Debug)]
pub enum Stage {
    Going,
    Won,
    Lost(u32),
    Undecided,
}

/// Which access a claim makes next in its object. A conciliator has one word, a ratifier its proposal and then its
/// registers, and a last object one word.
#[derive(Clone, Copy, PartialEq, Eq)]
pub enum Place {
    /// It loads the conciliator's word. If that is 0, it stores there next if its random word is below the limit.
    Look { limit: u64 },
    Write,
    Again,
    /// It sets a register of its value's write quorum: these registers are still to be set.
    Announce { left: u64 },
    Propose,
    SetProposal,
    /// It loads a register of the preference's read quorum: these registers are still to be loaded.
    Check { left: u64, preference: u32 },
    /// It stores its value in the last object's word if that is 0, by a compare-exchange.
    Exchange,
}

#[derive(Clone, Copy)]
pub struct Claim {
    pub consumer: u32,
    pub value: u32,
    /// How many ratifiers it has passed.
    pub passed: u32,
    /// Where the words of its object begin among the words of all cells.
    pub base: usize,
    pub place: Place,
    pub stage: Stage,
}

impl Claim {
    #[inline]
    pub fn new(layout: &Layout, consumer: u32, cell: usize) -> Claim {
        let place = match (layout.fast, layout.ratifiers) {
            (true, _) => announcing(layout, consumer),
            (false, 0) => Place::Exchange,
            (false, _) => Place::Look { limit: 1 },
        };
        Claim { consumer, value: consumer, passed: 0, base: cell * layout.cell_words, place, stage: Stage::Going }
    }

    #[inline]
    pub fn stage(&self) -> Stage {
        self.stage
    }

    /// Makes one access, with this random word. With `inline` alone, loops call it and take a quarter more instructions.
    #[inline(always)]
    pub fn step(&mut self, layout: &Layout, words: &[AtomicU64], word: u64) -> Stage {
        let base = self.base;
        match self.place {
            Place::Look { limit } => {
                let seen = words[base].load(SeqCst);
                if seen != 0 {
                    self.ratify(layout, (seen - 1) as u32)
                } else if word & (layout.modulus - 1) < limit {
                    self.place = Place::Write
                } else {
                    self.place = Place::Look { limit: limit * 2 }
                }
            }
            Place::Write => {
                words[base].store(u64::from(self.value) + 1, SeqCst);
                self.place = Place::Again
            }
            Place::Again => {
                let seen = words[base].load(SeqCst);
                self.ratify(layout, (seen - 1) as u32)
            }
            Place::Announce { left } => {
                words[base + 1 + left.trailing_zeros() as usize].store(1, SeqCst);
                let left = left & (left - 1);
                self.place = if left == 0 { Place::Propose } else { Place::Announce { left } }
            }
            Place::Propose => {
                let seen = words[base].load(SeqCst);
                if seen == 0 {
                    self.place = Place::SetProposal
                } else {
                    let preference = (seen - 1) as u32;
                    self.check(layout.read[preference as usize], preference)
                }
            }
            Place::SetProposal => {
                words[base].store(u64::from(self.value) + 1, SeqCst);
                self.check(layout.read[self.value as usize], self.value)
            }
            Place::Check { left, preference } => {
                if words[base + 1 + left.trailing_zeros() as usize].load(SeqCst) != 0 {
                    self.pass(layout, preference)
                } else {
                    self.check(left & (left - 1), preference)
                }
            }
            Place::Exchange => match exchange(&words[base], u64::from(self.value) + 1) {
                0 => self.decide(self.value),
                found => self.decide((found - 1) as u32),
            },
        }
        self.stage
    }

    /// Goes on from a conciliator to the ratifier after it, with this value as its input.
    #[inline]
    fn ratify(&mut self, layout: &Layout, value: u32) {
        self.base += 1;
        self.value = value;
        self.place = announcing(layout, value)
    }

    /// Goes on to load these registers. If none is left to load, the claim ends with the preference.
    #[inline]
    fn check(&mut self, left: u64, preference: u32) {
        if left != 0 {
            self.place = Place::Check { left, preference }
        } else {
            self.decide(preference)
        }
    }

    /// Ends the claim with this value: it is won if the value is the consumer's own, else lost.
    #[inline]
    fn decide(&mut self, value: u32) {
        self.stage = if value == self.consumer { Stage::Won } else { Stage::Lost(value) }
    }

    /// Goes on from a ratifier to the object after it, with this value. If no object is left, the claim is undecided.
    #[inline]
    fn pass(&mut self, layout: &Layout, value: u32) {
        self.base += layout.ratifier_words;
        self.passed += 1;
        self.value = value;
        if self.passed == layout.ratifiers {
            if layout.last {
                self.place = Place::Exchange
            } else {
                self.stage = Stage::Undecided
            }
        } else if layout.fast && self.passed == 1 {
            self.place = announcing(layout, value)
        } else {
            self.place = Place::Look { limit: 1 }
        }
    }
}

/// The first place in a ratifier with this value as input.
#[inline]
pub fn announcing(layout: &Layout, value: u32) -> Place {
    match layout.write[value as usize] {
        0 => Place::Propose,
        left => Place::Announce { left },
    }
}
