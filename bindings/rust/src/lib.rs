//! Message passing between threads, with a proof that nothing is taken twice.
//!
//! In a [`channel`], any number of values may be sent, in one order, and receivers sleep until one comes.
//!
//! In a [`Mailbox`] each producer puts values into a lane of its own, all consumers compete for each value, and **at most one
//! consumer takes it**. A report at the end says who took what, and gives back what is left. No put and no poll takes a
//! lock or waits, except in the allocator, for the box of a large value.
//!
//! The mailbox and the core of the channel are written in Rattle, which is Rust with contracts. They are proved for every
//! run: every order of the threads' steps, and all random words. This crate links two archives built from them, and needs
//! nothing else. It is for Linux, on x86-64 of level x86-64-v2 or on little-endian aarch64.
//!
//! ```
//! use hazbultra::Mailbox;
//! use std::thread;
//!
//! # fn main() -> Result<(), Box<dyn std::error::Error>> {
//! let mailbox = Mailbox::builder().producers(1).consumers(2).build()?;
//! let mut producer = mailbox.producer()?;
//! let (mut one, mut two) = (mailbox.consumer()?, mailbox.consumer()?);
//!
//! let (ones, twos) = thread::scope(|scope| {
//!     scope.spawn(move || (0..100).for_each(|n| producer.put(format!("letter {n}")).unwrap()));
//!     let ones = scope.spawn(|| one.values(thread::yield_now).count());
//!     let twos = scope.spawn(|| two.values(thread::yield_now).count());
//!     (ones.join().unwrap(), twos.join().unwrap())
//! });
//! drop((one, two));
//!
//! let left = mailbox.gather()?.into_left().count();
//! assert_eq!(ones + twos + left, 100);
//! # Ok(())
//! # }
//! ```
//!
//! # Types
//!
//! - [`Mailbox::builder`] is for values of any type that is [`Send`]. One of more than eight bytes is put in a box.
//!   [`Mailbox::numbers`] is for `u64`.
//! - A [`Producer`] puts values. It ends its lane and returns to its mailbox when it is dropped, also by a panic.
//! - A [`Consumer`] takes from one lane, or from all in turn. It returns to its mailbox when it is dropped.
//! - [`Mailbox::gather`] makes the [`Report`] after all producers and consumers were dropped.
//!
//! A mailbox takes as many items as it has cells, and uses no cell again. A long-lived service takes a [`channel`].
//!
//! # What is proved, and what the types add
//!
//! The archives are proved on condition that their caller keeps some rules. They stand at the heads of
//! `bindings/c/hazbultra.h` and `hazbultra_channel.h`. This crate keeps them, unless other `unsafe` code forks or handles signals. A producer or
//! consumer holds its own mailbox, is used by one thread at a time, is not `Clone`, and cannot be used after its drop. All
//! `unsafe` code is in one module, and each block says why it is sound.
//!
//! That a value has one owner *is* the main theorem. The mailbox passes on the value itself, or its box. A consumer
//! whose call returns [`Poll::Took`] owns the value. The report owns the values that nobody took. If two consumers took
//! one item, its value would be freed twice.
//!
//! [`Consumer::sweep`], [`Consumer::values`] and the calls of [`Report`] are plain Rust over the archive, and only tested.
//!
//! Not promised: that each value is taken, that a consumer who took one does its work, and fairness. But with the default
//! [`Shape`], and no budget for any poll or take, nothing is left after one consumer read [`Consumer::values`] to its end.

#[forbid(unsafe_code)]
mod builder;
#[forbid(unsafe_code)]
pub mod channel;
#[forbid(unsafe_code)]
mod consumer;
#[forbid(unsafe_code)]
mod errors;
#[allow(unsafe_code, reason = "values go through the archive as words")]
mod ffi;
#[forbid(unsafe_code)]
mod mailbox;
#[forbid(unsafe_code)]
mod producer;
#[cfg(doctest)]
mod refused;
#[forbid(unsafe_code)]
mod report;
#[forbid(unsafe_code)]
mod seeds;

/// The programs of the README. As doc tests they have to compile and run.
#[cfg(doctest)]
#[doc = include_str!("../README.md")]
struct Readme;

pub use builder::{Builder, Shape, Table};
pub use consumer::{Consumer, Poll, Sweep, Values};
pub use errors::{BuildError, Full, GatherError, IssueError};
pub use mailbox::Mailbox;
pub use producer::Producer;
pub use report::{Diary, LaneReport, Note, Report};
