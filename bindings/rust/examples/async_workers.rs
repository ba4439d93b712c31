//! Tasks ask questions, and other tasks answer them, on two threads and without any other crate. The executor's queue of
//! tasks that can go on is a channel, too. If you have an executor, take what stands below `run`.
use hazbultra::channel::{Receiver, Sender, bounded, unbounded};
use std::sync::{Arc, Mutex};
use std::task::{Context, Wake};
use std::{collections::BTreeMap, future::Future, ops::Range, pin::Pin, thread};

/// A task. While it is there, it keeps the executor's queue open.
struct Task {
    future: Mutex<Option<Pin<Box<dyn Future<Output = ()> + Send>>>>,
    queue: Sender<Arc<Task>>,
}

impl Wake for Task {
    fn wake(self: Arc<Self>) {
        self.queue.send(Arc::clone(&self)).ok(); // (it fails if no thread runs tasks any more)
    }
}

fn spawn(queue: &Sender<Arc<Task>>, future: impl Future<Output = ()> + Send + 'static) {
    let (future, queue) = (Mutex::new(Some(Box::pin(future) as _)), queue.clone());
    Arc::new(Task { future, queue }).wake();
}

/// Runs tasks until all have ended.
fn run(queue: Receiver<Arc<Task>>) {
    for task in queue {
        let waker = Arc::clone(&task).into();
        let context = &mut Context::from_waker(&waker);
        let mut future = task.future.lock().expect("no task panics");
        let Some(it) = &mut *future else { continue };
        if it.as_mut().poll(context).is_ready() {
            *future = None;
        }
    }
}

/// How many primes are there among these numbers? The answer goes to this sender.
struct Question(Range<u64>, Sender<usize>);

/// Counts the primes below a number: it asks about each hundred, and adds up the answers.
async fn ask(below: u64, questions: Sender<Question>, sums: Sender<(u64, usize)>) {
    let (sender, answers) = unbounded();
    for first in (0..below).step_by(100) {
        let question = Question(first..below.min(first + 100), sender.clone());
        questions.send_async(question).await.expect("it is open");
    }
    drop(sender);
    let mut sum = 0;
    while let Ok(count) = answers.recv_async().await {
        sum += count;
    }
    sums.send((below, sum)).expect("the main thread waits");
}

/// Answers questions until the channel is closed and empty.
async fn answer(questions: Receiver<Question>) {
    while let Ok(Question(numbers, asker)) = questions.recv_async().await {
        let is_prime = |it: &u64| *it > 1 && (2..*it).all(|divisor| it % divisor != 0);
        asker.send(numbers.filter(is_prime).count()).ok(); // (it fails if the asker is gone)
    }
}

fn main() {
    let (queue, tasks) = unbounded();
    let (sender, questions) = bounded(4);
    (0..3).for_each(|_| spawn(&queue, answer(questions.clone())));
    let (told, sums) = unbounded();
    for below in [2000, 1000, 500] {
        spawn(&queue, ask(below, sender.clone(), told.clone()));
    }
    drop((queue, told)); // (the tasks have clones)
    let threads = [tasks.clone(), tasks].map(|it| thread::spawn(|| run(it)));
    let sums: BTreeMap<_, _> = sums.iter().collect();
    println!("primes below: {sums:?}");
    sender.close(); // the stop: the workers end
    assert!(threads.into_iter().all(|it| it.join().is_ok()));
    println!("all tasks have ended");
}
