//! One producer puts a letter, and two consumers compete for it.
use hazbultra::Mailbox;
use std::error::Error;

fn main() -> Result<(), Box<dyn Error>> {
    let mailbox = Mailbox::builder().consumers(2).build()?;
    let mut producer = mailbox.producer()?;
    let (mut one, mut two) = (mailbox.consumer()?, mailbox.consumer()?);

    producer.put("a letter")?;
    println!("{:?}", one.poll(0).taken());
    println!("{:?}", two.poll(0));

    drop((producer, one, two));
    let report = mailbox.gather()?;
    println!("{} left", report.into_left().count());
    Ok(())
}
