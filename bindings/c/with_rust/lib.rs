//! A Rust library with one call for C, which brings a value through a mailbox and a channel of its own.
use hazbultra::{Mailbox, channel};

/// Puts this number into a mailbox, takes it, sends it through a channel and returns what was received. Returns 0 if a call
/// failed.
#[unsafe(no_mangle)]
pub extern "C" fn through_rust(number: u64) -> u64 {
    let through = || {
        let mailbox = Mailbox::builder().build().ok()?;
        let (mut producer, mut consumer) = (mailbox.producer().ok()?, mailbox.consumer().ok()?);
        producer.put(number).ok()?;
        let (sender, receiver) = channel::unbounded();
        sender.send(consumer.poll(0).taken()?).ok()?;
        receiver.try_recv().ok()
    };
    through().unwrap_or(0)
}
