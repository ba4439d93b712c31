//! Where the ends of a row stand. Each is used by one thread at a time.
use crate::ffi::{Begun, Held, Inlet, Latch, Looked, Outlet, Unsent};
use std::collections::BTreeMap;
use std::mem;
use std::sync::atomic::{AtomicU64, Ordering::Relaxed};
use std::sync::{Arc, OnceLock};

/// So many values a sender sends before it gets a desk.
const EARLY: u64 = 17;

/// From which a sender sends.
pub(crate) type Desk<T> = Place<Inlet<T>>;
/// From which a receiver takes.
pub(crate) type Seat<T> = Place<Outlet<T>>;

/// What a sender has. The first few values that it sends go from the lane. So a sender for one value costs no end.
pub(crate) struct Stand<T> {
    desk: OnceLock<Arc<Desk<T>>>,
    /// How many values it sent before it got a desk.
    sent: AtomicU64,
}

/// What a receiver has. It gets a seat with its first receive.
pub(crate) type Chair<T> = OnceLock<Arc<Seat<T>>>;

/// (It has its own cache lines, as a [`Line`](crate::channel::system::Line).)
#[repr(align(128))]
pub(crate) struct Place<E>(Latch<Kept<E>>);

pub(crate) struct Kept<E> {
    pub(super) end: E,
    /// So many values more go through this place until there is more to do than to count them.
    left: u64,
    /// How many will have gone through it by then.
    goal: u64,
    /// How many calls here sent or took nothing.
    pub(super) misses: u64,
    /// How many calls there were when somebody last looked whether the end does nothing.
    seen: u64,
    /// How many calls there were when the end was new.
    fresh: u64,
}

/// All places of one kind.
pub(super) struct Places<E> {
    /// By their addresses.
    all: BTreeMap<usize, Arc<Place<E>>>,
    /// How many values went through those that are gone.
    gone: u64,
}

impl<T> Default for Stand<T> {
    fn default() -> Self {
        Stand {
            desk: OnceLock::new(),
            sent: AtomicU64::new(0),
        }
    }
}

impl<T> Stand<T> {
    #[inline]
    pub(crate) fn desk(&self) -> Option<&Arc<Desk<T>>> {
        self.desk.get()
    }

    /// Counts a value that its sender sent without a desk. Returns whether it is time for one.
    pub(super) fn is_due(&self) -> bool {
        self.sent.fetch_add(1, Relaxed) + 1 == EARLY
    }

    pub(super) fn give(&self, desk: Arc<Desk<T>>) {
        drop(self.desk.set(desk)); // (only once)
    }
}

impl<E> Kept<E> {
    /// Counts a value. Returns whether there is more to do now, and then somebody calls `go_on`.
    #[inline]
    pub(super) fn pass(&mut self) -> bool {
        self.left -= 1;
        self.left == 0
    }

    /// There is no more to do until so many values went through this place.
    pub(super) fn go_on(&mut self, values: u64) {
        self.left = values;
        self.goal += values;
    }

    /// How many values went through this place.
    pub(super) fn count(&self) -> u64 {
        self.goal - self.left
    }
}

impl<E> Place<E> {
    /// There is more to do when so many values went through it.
    pub(super) fn new(end: E, values: u64) -> Place<E> {
        Place(Latch::new(Kept {
            end,
            left: values,
            goal: values,
            misses: 0,
            seen: 0,
            fresh: 0,
        }))
    }

    #[inline]
    pub(super) fn hold(&self) -> Held<'_, Kept<E>> {
        self.0.hold()
    }

    /// Puts a new end in place of one that did nothing since the last look, and returns the old one. An end that is new is
    /// left, and so is one that is in use.
    pub(super) fn tidy(&self, new: impl FnOnce() -> Option<E>) -> Option<E> {
        let mut kept = self.0.try_hold()?;
        let calls = kept.count() + kept.misses;
        let is_idle = mem::replace(&mut kept.seen, calls) == calls && calls != kept.fresh;
        let new = is_idle.then(new).flatten()?;
        kept.fresh = calls;
        Some(mem::replace(&mut kept.end, new))
    }
}

/// A place that is held.
pub(crate) type At<'a, E> = Held<'a, Kept<E>>;

/// A send that is not done yet, at the place where it began.
pub(crate) struct Sending<'a, T>(At<'a, Inlet<T>>, Begun<T>);

/// A take that took nothing so far, at the place where it began.
pub(crate) struct Taking<'a, T> {
    pub(super) at: At<'a, Outlet<T>>,
    pub(super) looked: Looked,
}

/// What was taken, and the place if there is more to do than to count the value. It is held then.
type Taken<'a, T> = (T, Option<At<'a, Outlet<T>>>);

impl<T> Place<Inlet<T>> {
    /// Sends a value, if one call does that.
    #[inline]
    pub(crate) fn send(&self, value: T) -> Result<(), Sending<'_, T>> {
        let mut at = self.hold();
        match at.end.send(value) {
            Ok(()) => {
                at.pass();
                Ok(())
            }
            Err(begun) => Err(Sending(at, begun)),
        }
    }
}

impl<T> Sending<'_, T> {
    pub(crate) fn go_on(self) -> Result<(), Unsent<T>> {
        let Sending(mut at, begun) = self;
        let sent = at.end.send_further(begun);
        match sent {
            Ok(()) => drop(at.pass()),
            Err(_) => at.misses += 1,
        }
        sent
    }
}

impl<T> Place<Outlet<T>> {
    /// Takes a value, if one call does that.
    #[inline]
    pub(crate) fn take(&self) -> Result<Taken<'_, T>, Taking<'_, T>> {
        let mut at = self.hold();
        match at.end.take() {
            Ok(value) => Ok((value, at.pass().then_some(at))),
            Err(looked) => Err(Taking { at, looked }),
        }
    }
}

impl<'a, T> Taking<'a, T> {
    /// A take that has not looked.
    pub(super) fn begin(seat: &'a Seat<T>) -> Taking<'a, T> {
        let (at, looked) = (seat.hold(), Looked::default());
        Taking { at, looked }
    }
}

impl<E> Default for Places<E> {
    fn default() -> Self {
        Places {
            all: BTreeMap::new(),
            gone: 0,
        }
    }
}

impl<E> Places<E> {
    pub(super) fn add(&mut self, place: Place<E>) -> Arc<Place<E>> {
        let place = Arc::new(place);
        self.all.insert(address(&place), Arc::clone(&place));
        place
    }

    /// Takes out a place that nobody uses any more. Returns whether that makes a thousand values more that went through
    /// places that are gone.
    pub(super) fn remove(&mut self, place: &Arc<Place<E>>) -> bool {
        let before = self.gone / 1024;
        if self.all.remove(&address(place)).is_some() {
            self.gone += place.hold().count();
        }
        self.gone / 1024 != before
    }

    pub(super) fn len(&self) -> u64 {
        self.all.len() as u64
    }

    pub(super) fn iter(&self) -> impl Iterator<Item = &Place<E>> {
        self.all.values().map(Arc::as_ref)
    }

    /// All of them, at which nothing happens while they are held.
    pub(super) fn hold(&self) -> Vec<Held<'_, Kept<E>>> {
        self.iter().map(Place::hold).collect()
    }

    /// How many values went through those that are held, and those that are gone.
    pub(super) fn count(&self, held: &[Held<'_, Kept<E>>]) -> u64 {
        let there: u64 = held.iter().map(|it| it.count()).sum();
        self.gone + there
    }
}

fn address<E>(place: &Arc<Place<E>>) -> usize {
    Arc::as_ptr(place).addr()
}
