//! What programs do with a channel, in which no value may be lost. Each scene runs 200 times.
use slog::{info, o, Drain, Logger, Never, OwnedKVList, Record};
use std::sync::atomic::{AtomicUsize, Ordering::SeqCst};
use std::sync::Arc;
use std::thread;

const RUNS: usize = 200;

/// Fails if a run did not come to `expected`.
fn each_run(expected: usize, run: impl FnMut(usize) -> usize) {
    let counts: Vec<_> = (0..RUNS).map(run).collect();
    let bad = counts.iter().filter(|it| **it != expected).count();
    let least = counts.iter().min();
    assert_eq!(bad, 0, "runs of {RUNS} that lost something; the least is {least:?} of {expected}");
}

struct Counter(Arc<AtomicUsize>);

impl Drain for Counter {
    type Ok = ();
    type Err = Never;

    fn log(&self, _: &Record<'_>, _: &OwnedKVList) -> Result<(), Never> {
        self.0.fetch_add(1, SeqCst);
        Ok(())
    }
}

/// A thread logs and is joined. Then the guard, with a sender of its own, sends the end.
#[test]
fn slog_async_logs_each_record() {
    each_run(300, |run| {
        let count = Arc::new(AtomicUsize::new(0));
        let drain = slog_async::Async::new(Counter(Arc::clone(&count))).chan_size(1000);
        // (each second time a sender that finds no room waits)
        let strategy = match run % 2 {
            0 => slog_async::OverflowStrategy::Drop,
            _ => slog_async::OverflowStrategy::Block,
        };
        let (drain, guard) = drain.overflow_strategy(strategy).build_with_guard();
        let logger = Logger::root(drain.fuse(), o!());
        let log = move || (0..300).for_each(|it| info!(logger, "record"; "number" => it));
        thread::spawn(log).join().unwrap();
        drop(guard);
        count.load(SeqCst)
    });
}

/// As in grcov: a producer is joined, and then a pill is sent to each worker.
#[test]
fn pills_come_last() {
    each_run(36, |run| {
        let threads = 1 + run % 4;
        let (sender, receiver) = match run % 2 {
            0 => crossbeam_channel::bounded(2 * threads),
            _ => crossbeam_channel::unbounded(),
        };
        let workers: Vec<_> = (0..threads)
            .map(|_| receiver.clone())
            .map(|it| thread::spawn(move || it.iter().map_while(|it| it).count()))
            .collect();
        let own = sender.clone();
        let produce = move || (0..36).for_each(|it| own.send(Some(it)).unwrap());
        thread::spawn(produce).join().unwrap();
        (0..threads).for_each(|_| sender.send(None).unwrap());
        workers.into_iter().map(|it| it.join().unwrap()).sum()
    });
}
