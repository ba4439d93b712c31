//! The proved archives as safe types. All `unsafe` code of the crate is in this module. The file
//! `ends.rs` says more of the channel's.
//!
//! `bindings/c/hazbultra.h` says what a caller owes. Each comment `SAFETY: the rules of calls` below means this:
//!
//! 1. A [`Handle`](handle::Handle) begins empty, has private fields and no `Clone`. So only calls of the archive write it.
//! 2. Pointers are made of references to values of the declared types. Two `&mut` never lead to the same value. No code
//!    of the crate moves the `part` of a producer or consumer.
//! 3. Each call takes the handle by `&mut`. So it is in one call at a time. A `&mut` reaches another thread only by
//!    what makes the earlier call happen before: a lock, a join, a channel, the count of an `Arc`.
//! 4. The header asks for a number that no other mailbox of the process was given, also none of another copy of the
//!    archive. [`Hub::new`] takes it from the one counter of this crate, and `links` in its `Cargo.toml` allows one
//!    copy of the crate in one cargo build. A copy of another build may give the same number. That does no harm:
//!    `hz_take_back` alone compares numbers, and each producer and consumer returns to its own hub.
//! 5. [`heap`] takes memory from the one allocator of the C library.
//! 6. A program without `unsafe` code makes no call from a signal handler or from a forked child.
//!
//! # Why a value has one owner
//!
//! An item of the mailbox is a word. Here the word stands for a value: it is the value itself, or a box of it. Whoever
//! turns the word back into the value has to be the only one. These proved clauses of the archive's calls say so. The
//! comments name them `ownership`:
//!
//! - `hz_gather`: `main_theorem`, which is that of `Mailbox::gather`. One assignment explains the whole report: each item put
//!   goes to at most one consumer, which takes its items in the order put, and each that was not taken is left, once.
//! - `hz_poll` and `hz_take`: `came` (`polled`, `taken`). The answer is that of the poll, or of the last of the take's polls. So a
//!   consumer is told `HZ_TOOK` of an item exactly if it gets the note of it, which the report has.
//! - `hz_put`: `linked` and `full`. An item is put by `HZ_LINKED` alone. After `HZ_FULL` it is in no lane.
//!
//! The first speaks of a report. But each run can go on until its calls end, all producers and consumers are returned,
//! and a report is made. So no two consumers are told `HZ_TOOK` of one item in any run, also if nobody makes a report.
//!
//! A word is an item of a place in a lane. Two places may hold equal words: a box that was taken and freed leaves its
//! address to a later one, and boxes of no bytes share an address. Then each of the two is a value of its own.
//!
//! What a producer wrote before its put, also to a box, is seen by whoever takes the item, since both access the
//! shared words in the one order of all `SeqCst` accesses.
mod calls;
mod ends;
mod handle;
mod heap;
mod hub;
mod latch;
mod parts;
mod report;
mod tray;
mod word;

pub(crate) use calls::{BITS, MIDDLE, Setup, UNARY, number};
pub(crate) use ends::{Begun, Inlet, Looked, Outlet, Unsent, Untaken, ends};
pub(crate) use hub::{Hub, NotIssued, Refusal};
pub(crate) use latch::{Held, Latch};
pub(crate) use parts::{Consumer, Producer};
