//! Two workers sleep until jobs come, and share them. They end when nothing is left.
use hazbultra::channel;
use std::thread;

fn main() {
    let (sender, receiver) = channel::unbounded();
    let workers = [receiver.clone(), receiver];
    let workers = workers.map(|jobs| thread::spawn(move || jobs.iter().sum::<u64>()));
    for job in 1..=100 {
        sender.send(job).unwrap();
    }
    drop(sender); // the workers end when nothing is left
    let sums = workers.map(|it| it.join().unwrap());
    println!("{}", sums[0] + sums[1]);
}
