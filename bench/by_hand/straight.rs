//! Claims made by plain loops. They make the same accesses with the same random words as the steps of `claim.rs`.

use crate::claim::{self, Claim, Place, Stage, announcing};
use crate::layout::Layout;
use crate::source::Source;
use std::sync::atomic::AtomicU64;
use std::sync::atomic::Ordering::SeqCst;

/// The words on which a claim makes its accesses, the source of its random words, and how many accesses it may still make.
struct Turns<'a> {
    words: &'a [AtomicU64],
    source: &'a mut Source,
    left: u64,
}

impl Turns<'_> {
    /// Returns the random word of the next access, which counts as made.
    #[inline(always)]
    fn draw(&mut self) -> u64 {
        self.left -= 1;
        self.source.word()
    }

    #[inline(always)]
    fn load(&mut self, at: usize) -> u64 {
        self.draw();
        self.words[at].load(SeqCst)
    }

    #[inline(always)]
    fn store(&mut self, at: usize, value: u64) {
        self.draw();
        self.words[at].store(value, SeqCst)
    }
}

impl Claim {
    /// Goes through whole pairs, or ratifiers of the fast path, as long as more accesses are left than one of them may
    /// take. Returns what is left of the budget. It does nothing if the claim is in the middle of a pair or ratifier, or at
    /// a last object.
    #[inline(always)]
    pub fn run(&mut self, layout: &Layout, words: &[AtomicU64], source: &mut Source, budget: u64) -> u64 {
        if self.place != first(layout, self.value, self.passed) {
            return budget;
        }
        let mut turns = Turns { words, source, left: budget };
        let (mut value, mut base, mut passed) = (self.value, self.base, self.passed);
        self.stage = loop {
            if turns.left <= layout.most_on_pair {
                (self.value, self.base, self.passed) = (value, base, passed);
                self.place = first(layout, value, passed);
                break Stage::Going;
            }
            if passed >= fast_ratifiers(layout) {
                value = conciliate(layout, &mut turns, base, value);
                base += 1
            }
            let decided;
            (decided, value) = ratify(layout, &mut turns, base, value);
            if decided {
                break ended(self.consumer, value);
            }
            base += layout.ratifier_words;
            passed += 1;
            if passed == layout.ratifiers {
                break if layout.last {
                    ended(self.consumer, exchange(&mut turns, base, value))
                } else {
                    Stage::Undecided
                };
            }
        };
        turns.left
    }
}

/// How many ratifiers the fast path has.
#[inline(always)]
fn fast_ratifiers(layout: &Layout) -> u32 {
    if layout.fast { 2 } else { 0 }
}

/// The place at the beginning of a pair, or of a ratifier of the fast path, with this value as input.
#[inline(always)]
fn first(layout: &Layout, value: u32, passed: u32) -> Place {
    if passed < fast_ratifiers(layout) { announcing(layout, value) } else { Place::Look { limit: 1 } }
}

/// The stage of a consumer's claim that ended with this value.
#[inline(always)]
fn ended(consumer: u32, value: u32) -> Stage {
    if value == consumer { Stage::Won } else { Stage::Lost(value) }
}

/// Goes through the conciliator whose word is at `base`, with this input. Returns its output.
#[inline(always)]
fn conciliate(layout: &Layout, turns: &mut Turns, base: usize, input: u32) -> u32 {
    let mut limit = 1;
    loop {
        let word = turns.draw();
        let seen = turns.words[base].load(SeqCst);
        if seen != 0 {
            return (seen - 1) as u32;
        }
        if word & (layout.modulus - 1) < limit {
            turns.store(base, u64::from(input) + 1);
            return (turns.load(base) - 1) as u32;
        }
        limit *= 2
    }
}

/// Goes through the ratifier whose words begin at `base`, with this input. Returns whether it decided, and its output.
#[inline(always)]
fn ratify(layout: &Layout, turns: &mut Turns, base: usize, input: u32) -> (bool, u32) {
    let mut left = layout.write[input as usize];
    while left != 0 {
        turns.store(base + 1 + left.trailing_zeros() as usize, 1);
        left &= left - 1
    }
    let preference = match turns.load(base) {
        0 => {
            turns.store(base, u64::from(input) + 1);
            input
        }
        seen => (seen - 1) as u32,
    };
    let mut left = layout.read[preference as usize];
    while left != 0 {
        if turns.load(base + 1 + left.trailing_zeros() as usize) != 0 {
            return (false, preference);
        }
        left &= left - 1
    }
    (true, preference)
}

/// Goes through the last object whose word is at `base`, with this input. Returns its output.
#[inline(always)]
fn exchange(turns: &mut Turns, base: usize, input: u32) -> u32 {
    turns.draw();
    match claim::exchange(&turns.words[base], u64::from(input) + 1) {
        0 => input,
        found => (found - 1) as u32,
    }
}
