//! One thread puts letters, and two threads take them. Each letter goes to one of the two, or is left.
use hazbultra::Mailbox;
use std::error::Error;
use std::thread;

const LETTERS: usize = 1000;

fn main() -> Result<(), Box<dyn Error>> {
    let mailbox = Mailbox::builder().consumers(2).cells(1000).build()?;
    let mut producer = mailbox.producer()?;
    let consumers = [mailbox.consumer()?, mailbox.consumer()?];

    let taken: usize = thread::scope(|scope| {
        scope.spawn(move || {
            for number in 0..LETTERS {
                producer
                    .put(format!("letter {number}"))
                    .expect("a cell for each letter");
            }
        });
        let readers = consumers
            .map(|mut consumer| scope.spawn(move || consumer.values(thread::yield_now).count()));
        readers
            .into_iter()
            .map(|reader| reader.join().expect("no reader panics"))
            .sum()
    });

    let left = mailbox.gather()?.into_left().count();
    assert_eq!(taken + left, LETTERS);
    println!("{LETTERS} letters were taken or left, and none twice");
    Ok(())
}
