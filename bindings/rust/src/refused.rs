//! Programs, each with a mistake that the types refuse, but for the first, which compiles. No other may compile.
//! CI tries them all. rustdoc checks the codes `E0xxx` on nightly only. On stable any error of the compiler will do.
//!
//! ```
//! use hazbultra::Mailbox;
//!
//! let mailbox = Mailbox::builder().build().unwrap();
//! let (mut producer, mut consumer) = (mailbox.producer().unwrap(), mailbox.consumer().unwrap());
//! producer.put(String::from("a letter")).unwrap();
//! producer.finish();
//! assert!(consumer.poll(0).taken().is_some());
//! drop(consumer);
//! assert!(mailbox.gather().is_ok());
//! ```
//!
//! A put after the end of the lane:
//!
//! ```compile_fail,E0382
//! use hazbultra::Mailbox;
//!
//! let mailbox = Mailbox::builder().build().unwrap();
//! let mut producer = mailbox.producer().unwrap();
//! producer.finish();
//! producer.put(1).unwrap();
//! ```
//!
//! A producer that is issued after the report was made:
//!
//! ```compile_fail,E0382
//! use hazbultra::Mailbox;
//!
//! let mailbox = Mailbox::<u8>::builder().build().unwrap();
//! let report = mailbox.gather().unwrap();
//! let producer = mailbox.producer().unwrap();
//! ```
//!
//! A copy of a producer:
//!
//! ```compile_fail,E0599
//! use hazbultra::Mailbox;
//!
//! let mailbox = Mailbox::<u8>::builder().build().unwrap();
//! let producer = mailbox.producer().unwrap();
//! let copy = producer.clone();
//! ```
//!
//! A copy of a consumer:
//!
//! ```compile_fail,E0599
//! use hazbultra::Mailbox;
//!
//! let mailbox = Mailbox::<u8>::builder().build().unwrap();
//! let consumer = mailbox.consumer().unwrap();
//! let copy = consumer.clone();
//! ```
//!
//! One consumer in two threads:
//!
//! ```compile_fail,E0499
//! use hazbultra::Mailbox;
//! use std::thread;
//!
//! let mailbox = Mailbox::<u8>::builder().build().unwrap();
//! let mut consumer = mailbox.consumer().unwrap();
//! thread::scope(|scope| {
//!     scope.spawn(|| consumer.poll(0));
//!     scope.spawn(|| consumer.poll(0));
//! });
//! ```
//!
//! A producer, or a consumer, to which two threads have a reference. Neither type is `Sync`:
//!
//! ```compile_fail,E0277
//! fn is_sync<T: Sync>() {}
//! is_sync::<hazbultra::Producer<u8>>();
//! ```
//!
//! ```compile_fail,E0277
//! fn is_sync<T: Sync>() {}
//! is_sync::<hazbultra::Consumer<u8>>();
//! ```
//!
//! A mailbox for values that are not `Send`:
//!
//! ```compile_fail,E0599
//! use hazbultra::Mailbox;
//! use std::rc::Rc;
//!
//! let mailbox = Mailbox::<Rc<u8>>::builder().build().unwrap();
//! ```
//!
//! A mailbox for numbers whose values are not `u64`:
//!
//! ```compile_fail,E0599
//! let builder = hazbultra::Mailbox::<String>::numbers();
//! ```
//!
//! A reference to a value that is gone before the mailbox is:
//!
//! ```compile_fail,E0597
//! use hazbultra::Mailbox;
//!
//! let mailbox = Mailbox::builder().build().unwrap();
//! let mut producer = mailbox.producer().unwrap();
//! {
//!     let letter = String::from("a letter");
//!     producer.put(letter.as_str()).unwrap();
//! }
//! ```
//!
//! A producer that takes shorter-lived references than its consumers return:
//!
//! ```compile_fail
//! use hazbultra::{Consumer, Mailbox, Producer};
//!
//! fn shorter<'a>(producer: Producer<&'static str>, _letter: &'a str) -> Producer<&'a str> {
//!     producer
//! }
//! ```
//!
//! A use of the module that passes items on as words. It is private, since a word could be given to two consumers:
//!
//! ```compile_fail,E0603
//! use hazbultra::ffi;
//! ```
