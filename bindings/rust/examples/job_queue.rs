//! A job queue with retries. Workers sleep until a job comes. A job that fails or panics goes back to the queue, and runs
//! again, up to three times in all. After the stop, the workers run what is left, and end. An audit confirms who ran what.
use hazbultra::channel::{Builder, Receiver};
use std::collections::BTreeMap;
use std::{panic, thread, time::Duration};

const WORKERS: usize = 4;
const MOST_TRIES: usize = 3;

struct Mail {
    number: u32,
    /// The number of each try's worker.
    tried_by: Vec<u64>,
}

/// The work of a job, which may fail or panic.
fn deliver(mail: &Mail) -> Result<(), String> {
    thread::sleep(Duration::from_millis(5)); // (a server takes its time)
    match (mail.number, mail.tried_by.len()) {
        (3, 1) => Err("the server is busy".into()),
        (5, 1 | 2) => panic!("mail 5 panics twice"),
        (8, _) => Err("nobody has this address".into()),
        _ => Ok(()),
    }
}

/// Runs jobs until the queue is closed and empty, and no job can come back.
fn worker(queue: &Receiver<Mail>) -> Vec<(Mail, String)> {
    let mut ended = Vec::new();
    while let Ok(mut job) = queue.recv_job() {
        job.tried_by.push(queue.number());
        let told = match panic::catch_unwind(|| deliver(&job)) {
            Ok(Ok(())) => "delivered".into(),
            _ if job.tried_by.len() < MOST_TRIES => continue, // (its drop gives the job back)
            Ok(Err(why)) => why,
            Err(_) => "panicked".into(),
        };
        ended.push((job.done(), told));
    }
    ended
}

fn main() {
    let (sender, receiver, audit) = Builder::new().audited();
    let workers = vec![receiver; WORKERS].into_iter();
    let workers: Vec<_> = workers
        .map(|queue| thread::spawn(move || worker(&queue)))
        .collect();
    let mail = |number| Mail {
        number,
        tried_by: Vec::new(),
    };
    for number in 1..=10 {
        sender.send(mail(number)).expect("the workers are there");
    }
    sender.close(); // the stop
    let refused = sender.send(mail(11)).expect_err("the queue is closed");
    println!("mail {} came after the stop", refused.into_inner().number);

    let ended = workers
        .into_iter()
        .flat_map(|it| it.join().expect("each panic is caught"));
    let mut ended: Vec<_> = ended.collect();
    ended.sort_by_key(|(mail, _)| mail.number);
    for (mail, told) in &ended {
        println!("mail {}: {told}, tried by {:?}", mail.number, mail.tried_by);
    }

    // The audit counts what each worker took, and has to agree with what the mails say.
    let mut tries = BTreeMap::new();
    for worker in ended.iter().flat_map(|(mail, _)| &mail.tried_by) {
        *tries.entry(*worker).or_default() += 1;
    }
    let totals = audit.totals();
    assert_eq!(totals.taken, tries);
    println!("{totals:?}");
}
