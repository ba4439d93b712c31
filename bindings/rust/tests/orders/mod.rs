//! Runs threads in each order of their steps, up to a number of preemptions. A step is what a thread does between two calls
//! of [`step`]. One thread runs at a time. It is a preemption if a thread stops though it could go on.
use std::cell::RefCell;
use std::sync::mpsc::{Sender, channel};
use std::sync::{Arc, Mutex, MutexGuard};
use std::thread::{self, Thread};

type When = Box<dyn Fn() -> bool + Send>;
type Work = Box<dyn FnOnce() + Send>;

/// The threads of one run.
pub struct Bodies {
    /// Each thread's name and work. Threads that do the same stand together with one name, and begin in this order.
    pub threads: Vec<(String, Work)>,
    /// The last thread. It begins only when no other can go on, and if its condition holds or all others have ended.
    pub last: (When, Work),
}

#[derive(Default)]
struct Run {
    state: Mutex<State>,
}

#[derive(Default)]
struct State {
    /// The condition on which each thread can go on, or `None` if the thread has ended.
    threads: Vec<Option<When>>,
    names: Vec<String>,
    has_begun: Vec<bool>,
    last: Option<When>,
    handles: Vec<Thread>,
    /// The number of the thread whose turn it is.
    current: usize,
    /// How many preemptions there may still be.
    preemptions: usize,
    /// Each choice of this run, and among how many it is. `made` is how many of them the run has come to.
    choices: Vec<(usize, usize)>,
    made: usize,
}

/// The number that says that it is nobody's turn: the run is over.
const NOBODY: usize = usize::MAX;

thread_local! {
    static HERE: RefCell<Option<(Arc<Run>, usize)>> = const { RefCell::new(None) };
}

impl State {
    /// The next choice: the one that `choices` has for this run, or else the first.
    fn choose(&mut self, among: usize) -> usize {
        if self.made == self.choices.len() {
            self.choices.push((0, among));
        }
        self.made += 1;
        self.choices[self.made - 1].0
    }

    fn is_able(&self, thread: usize) -> bool {
        let is_twin_first = thread > 0
            && self.names[thread - 1] == self.names[thread]
            && !self.has_begun[thread - 1];
        self.threads[thread].as_ref().is_some_and(|when| when())
            && (self.has_begun[thread] || !is_twin_first)
    }

    /// Gives the turn to a thread that can go on. The first choice is the present thread, if it can.
    fn hand_over(&mut self, may_stop: bool) {
        let last = self.threads.len() - 1;
        let mut able: Vec<_> = (0..last).filter(|it| self.is_able(*it)).collect();
        if self.last.is_none() && self.is_able(last) {
            able.push(last);
        }
        let place = able.iter().position(|it| *it == self.current);
        if let Some(place) = place {
            able[..=place].rotate_right(1);
            if self.preemptions == 0 && !may_stop {
                able.truncate(1);
            }
        }
        if able.is_empty() {
            let is_alone = self.threads[..last].iter().all(Option::is_none);
            if self.last.take_if(|when| is_alone || when()).is_some() {
                able.push(last);
            }
        }
        let choice = if able.len() > 1 {
            self.choose(able.len())
        } else {
            0
        };
        self.preemptions -= usize::from(choice > 0 && place.is_some() && !may_stop);
        self.current = able.get(choice).copied().unwrap_or(NOBODY);
        if self.current == NOBODY {
            self.handles.last().unwrap().unpark();
        } else {
            self.has_begun[self.current] = true;
            self.handles[self.current].unpark();
        }
    }
}

fn here() -> (Arc<Run>, usize) {
    HERE.with_borrow(Clone::clone).expect("a thread of a run")
}

fn wait_for_turn<'a>(
    run: &'a Run,
    me: usize,
    mut state: MutexGuard<'a, State>,
) -> MutexGuard<'a, State> {
    while state.current != me {
        drop(state);
        thread::park();
        state = run.state.lock().unwrap();
    }
    state
}

fn next_step(when: When, may_stop: bool) {
    let (run, me) = here();
    let mut state = run.state.lock().unwrap();
    state.threads[me] = Some(when);
    state.hand_over(may_stop);
    drop(wait_for_turn(&run, me, state));
}

/// Ends a step of this thread. The next one begins when it has the turn again.
pub fn step() {
    next_step(Box::new(|| true), false);
}

/// Ends a step of this thread. The next one begins when it has the turn again and this condition holds.
pub fn step_when(when: impl Fn() -> bool + Send + 'static) {
    next_step(Box::new(when), false);
}

/// Does what [`step_when`] does. But if another thread gets the turn here, that is no preemption.
pub fn rest_until(when: impl Fn() -> bool + Send + 'static) {
    next_step(Box::new(when), true);
}

/// Returns false or true: the search tries both.
pub fn either() -> bool {
    here().0.state.lock().unwrap().choose(2) == 1
}

/// Starts a thread that does its work in one run after the other. Returns where to send it runs.
fn worker(me: usize) -> Sender<(Arc<Run>, Work)> {
    let (sender, receiver) = channel::<(Arc<Run>, Work)>();
    thread::spawn(move || {
        for (run, work) in receiver {
            let mut state = run.state.lock().unwrap();
            state.handles[me] = thread::current();
            drop(wait_for_turn(&run, me, state));
            HERE.set(Some((Arc::clone(&run), me)));
            work();
            HERE.set(None);
            state = run.state.lock().unwrap();
            state.threads[me] = None;
            state.hand_over(false);
        }
    });
    sender
}

/// Runs the threads once, by these choices. Returns whether all threads ended.
fn run_once(
    workers: &[Sender<(Arc<Run>, Work)>],
    bodies: Bodies,
    preemptions: usize,
    choices: &mut Vec<(usize, usize)>,
) -> bool {
    let (names, mut works): (Vec<_>, Vec<_>) = bodies.threads.into_iter().unzip();
    works.push(bodies.last.1);
    let mut state = State {
        threads: works
            .iter()
            .map(|_| Some(Box::new(|| true) as When))
            .collect(),
        has_begun: vec![false; works.len()],
        names: names.into_iter().chain([String::from("last")]).collect(),
        last: Some(bodies.last.0),
        handles: vec![thread::current(); works.len() + 1],
        current: NOBODY,
        preemptions,
        choices: std::mem::take(choices),
        made: 0,
    };
    state.hand_over(false);
    let run = Arc::new(Run {
        state: Mutex::new(state),
    });
    for (worker, work) in workers.iter().zip(works) {
        worker.send((Arc::clone(&run), work)).unwrap();
    }
    let mut state = wait_for_turn(&run, NOBODY, run.state.lock().unwrap());
    *choices = std::mem::take(&mut state.choices);
    state.threads.iter().all(Option::is_none)
}

/// Runs these threads in all orders with at most so many preemptions. Returns how many orders there are, or the choices of
/// an order in which a thread waits for ever.
pub fn search(preemptions: usize, bodies: impl Fn() -> Bodies) -> Result<u64, String> {
    let workers: Vec<_> = (0..=bodies().threads.len()).map(worker).collect();
    let mut choices = Vec::new();
    for count in 1.. {
        if !run_once(&workers, bodies(), preemptions, &mut choices) {
            return Err(format!(
                "a thread waits for ever in run {count}: {choices:?}"
            ));
        }
        // The next run takes the next alternative at the latest choice that has a further one.
        while choices.last().is_some_and(|it| it.0 + 1 == it.1) {
            choices.pop();
        }
        match choices.last_mut() {
            Some(choice) => choice.0 += 1,
            None => return Ok(count),
        }
    }
    unreachable!("a run has an end")
}
