//! Tests of the channel's jobs and of its audit.
use hazbultra::channel::{
    Builder, Receiver, RecvError, TryRecvError, TrySendError, bounded, unbounded,
};
use std::collections::BTreeMap;
use std::thread;
use std::time::Duration;

const SHORT: Duration = Duration::from_millis(20);

#[test]
fn a_job_comes_back_unless_it_is_done() {
    let (sender, receiver) = unbounded();
    sender.send(1).unwrap();
    sender.send(2).unwrap();
    assert_eq!(receiver.recv_job().unwrap().done(), 1);
    let mut job = receiver.try_recv_job().unwrap();
    *job += 10;
    assert_eq!(*job, 12);
    drop(job);
    let worker = {
        let receiver = receiver.clone();
        thread::spawn(move || {
            let _job = receiver.recv_job();
            std::panic::resume_unwind(Box::new("in the midst of it"));
        })
    };
    assert!(worker.join().is_err());
    drop(sender);
    assert_eq!(receiver.recv_job().unwrap().done(), 12);
    assert!(receiver.recv_job().is_err());
    assert!(receiver.try_recv_job().unwrap_err().is_disconnected());
}

#[test]
fn receivers_wait_while_a_job_is_open() {
    let (sender, receiver) = unbounded();
    let other = receiver.clone();
    sender.send(1).unwrap();
    drop(sender);
    let job = receiver.recv_job().unwrap();
    assert_eq!(receiver.try_recv(), Err(TryRecvError::Empty));
    let sleeper = thread::spawn(move || (other.recv(), other.recv()));
    thread::sleep(SHORT * 5);
    drop(job);
    assert_eq!(sleeper.join().unwrap(), (Ok(1), Err(RecvError)));
}

#[test]
fn the_last_job_ends_the_channel() {
    let (sender, receiver) = unbounded();
    sender.send(1).unwrap();
    drop(sender);
    let work = |receiver: Receiver<u8>| {
        receiver.recv_job().map(|job| {
            thread::sleep(SHORT * 5); // (so that the other workers sleep)
            job.done()
        })
    };
    let workers = [(); 8].map(|()| receiver.clone());
    let workers = workers.map(|it| thread::spawn(move || work(it)));
    let done = workers.map(|it| it.join().unwrap());
    assert_eq!(done.iter().filter(|it| it.is_ok()).count(), 1);
}

#[test]
fn a_bound_gives_way_to_a_job_that_comes_back() {
    let (sender, receiver) = bounded(1);
    sender.send(1).unwrap();
    let job = receiver.recv_job().unwrap();
    sender.send(2).unwrap();
    drop(job);
    assert_eq!(sender.try_send(3), Err(TrySendError::Full(3)));
    assert_eq!((receiver.recv(), receiver.recv()), (Ok(2), Ok(1)));
    assert_eq!(sender.try_send(3), Ok(()));
}

#[test]
fn accounts_while_it_runs() {
    let (sender, receiver, audit) = Builder::new().account(3).audited();
    let other = receiver.clone();
    (0..7).for_each(|it| sender.send(it).unwrap());
    assert_eq!((receiver.recv(), other.recv()), (Ok(0), Ok(1)));
    assert_eq!((receiver.recv(), receiver.recv()), (Ok(2), Ok(3)));
    let accounts = audit.accounts();
    let [account] = &accounts[..] else {
        panic!("three values were taken: {accounts:?}")
    };
    let takers: Vec<_> = account.fates.iter().map(|it| it.receiver).collect();
    assert_eq!(
        takers,
        [receiver.number(), other.number(), receiver.number()].map(Some)
    );
    assert!(
        account
            .fates
            .iter()
            .all(|it| it.sender == Some(sender.number()))
    );
    assert!(audit.accounts().is_empty(), "each is handed out once");

    drop((receiver, other));
    let left: Vec<_> = audit
        .accounts()
        .into_iter()
        .flat_map(|it| it.left)
        .collect();
    assert_eq!(left, [4, 5, 6]);
    let totals = audit.totals();
    assert_eq!(totals.sent, BTreeMap::from([(sender.number(), 7)]));
    assert_eq!(totals.taken, BTreeMap::from([(0, 3), (1, 1)]));
    assert_eq!((totals.left, totals.given_back), (3, 0));
}

/// The bytes of memory that this process uses.
fn resident() -> u64 {
    let pages = std::fs::read_to_string("/proc/self/statm").unwrap();
    pages.split(' ').nth(1).unwrap().parse::<u64>().unwrap() * 4096
}

#[test]
fn an_idle_end_keeps_no_memory_for_long() {
    let (sender, receiver) = unbounded();
    let (idle_sender, idle) = (sender.clone(), receiver.clone());
    // (so many give a sender a place of its own)
    for it in 0..20_u64 {
        idle_sender.send(it).unwrap();
        idle.recv().unwrap();
    }
    let looking = receiver.clone();
    assert_eq!(looking.try_recv(), Err(TryRecvError::Empty));
    let before = resident();
    (0..2_000_000).for_each(|it| {
        sender.send(it).unwrap();
        receiver.recv().unwrap();
    });
    // (the values that went through took 32 MB)
    let more = resident().saturating_sub(before);
    assert!(more < 16_000_000, "{more} bytes more");
    drop((idle_sender, idle, looking));
}

#[test]
fn the_audit_agrees_with_the_ends() {
    let (sender, receiver, audit) = Builder::new().account(7).audited();
    let takers: Vec<_> = (0..4)
        .map(|_| receiver.clone())
        .map(|it| thread::spawn(move || (it.number(), it.iter().take(300).count() as u64)))
        .collect();
    let senders: Vec<_> = (0..3)
        .map(|_| sender.clone())
        .map(|it| thread::spawn(move || (0..500_u64).map(|n| it.send(n).unwrap()).count()))
        .collect();
    let sent: usize = senders.into_iter().map(|it| it.join().unwrap()).sum();
    let taken: BTreeMap<_, _> = takers.into_iter().map(|it| it.join().unwrap()).collect();
    drop((sender, receiver));
    let totals = audit.totals();
    assert_eq!((sent, totals.sent.values().sum::<u64>()), (1500, 1500));
    assert_eq!(totals.taken, taken);
    assert_eq!(totals.left, 300);
    assert_eq!(
        audit.accounts().len(),
        16,
        "older ones are in the totals alone"
    );
}
