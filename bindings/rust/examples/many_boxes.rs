//! Many boxes go through mailboxes, a new one for each round. Four threads put and four take. Each box is dropped once, and
//! none is lost. `cargo run --release --example many_boxes -- 10000000` takes ten million boxes. The default is ten thousand.
use hazbultra::{Builder, Mailbox};
use std::env;
use std::error::Error;
use std::sync::atomic::{AtomicUsize, Ordering};
use std::thread;
use std::time::Instant;

const PRODUCERS: usize = 4;
const CONSUMERS: usize = 4;
const ROUND: usize = 100_000;

static DROPS: AtomicUsize = AtomicUsize::new(0);
static SUM: AtomicUsize = AtomicUsize::new(0);

/// A number whose drop counts in `DROPS`, and adds the number to `SUM`.
struct Counted(usize);

impl Drop for Counted {
    fn drop(&mut self) {
        DROPS.fetch_add(1, Ordering::Relaxed);
        SUM.fetch_add(self.0, Ordering::Relaxed);
    }
}

/// Puts and takes the boxes of one round. Returns how many were taken, and how many were left.
fn round(
    builder: &Builder<Box<Counted>>,
    first: usize,
    count: usize,
) -> Result<(usize, usize), Box<dyn Error>> {
    let mailbox = builder.build()?;
    let producers = (0..PRODUCERS)
        .map(|_| mailbox.producer())
        .collect::<Result<Vec<_>, _>>()?;
    let consumers = (0..CONSUMERS)
        .map(|_| mailbox.consumer())
        .collect::<Result<Vec<_>, _>>()?;
    let taken = thread::scope(|scope| {
        for (lane, mut producer) in (0..).zip(producers) {
            scope.spawn(move || {
                for number in (first + lane..first + count).step_by(PRODUCERS) {
                    producer
                        .put(Box::new(Counted(number)))
                        .expect("a cell for each box");
                }
            });
        }
        let takers: Vec<_> = consumers
            .into_iter()
            .map(|mut consumer| scope.spawn(move || consumer.values(thread::yield_now).count()))
            .collect();
        takers
            .into_iter()
            .map(|it| it.join().expect("no taker panics"))
            .sum()
    });
    Ok((taken, mailbox.gather()?.into_left().count()))
}

fn main() -> Result<(), Box<dyn Error>> {
    let boxes = env::args().nth(1).map_or(Ok(10_000), |word| word.parse())?;
    let builder = Mailbox::builder()
        .producers(PRODUCERS)
        .consumers(CONSUMERS)
        .cells(ROUND);
    let began = Instant::now();
    let (mut first, mut taken, mut left) = (0, 0, 0);
    while first < boxes {
        let count = ROUND.min(boxes - first);
        let (some, rest) = round(&builder, first, count)?;
        (first, taken, left) = (first + count, taken + some, left + rest);
    }
    // Each consumer read its values to the end, so nothing is left.
    assert_eq!((taken, left), (boxes, 0));
    assert_eq!(DROPS.load(Ordering::Relaxed), boxes);
    assert_eq!(
        SUM.load(Ordering::Relaxed),
        boxes * boxes.saturating_sub(1) / 2
    );
    println!("{boxes} boxes: {taken} taken, {left} left, each dropped once");
    eprintln!("{:.1} seconds", began.elapsed().as_secs_f64());
    Ok(())
}
