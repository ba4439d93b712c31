//! The iterators of a receiver.
use super::errors::written;
use super::receiver::Receiver;
use std::iter::FusedIterator;

/// An iterator over the values that a receiver receives. [`Receiver::iter`] makes it.
#[must_use = "it does nothing until it is iterated over"]
pub struct Iter<'a, T> {
    pub(super) receiver: &'a Receiver<T>,
}

/// An iterator over the values that are there. [`Receiver::try_iter`] makes it.
#[must_use = "it does nothing until it is iterated over"]
pub struct TryIter<'a, T> {
    pub(super) receiver: &'a Receiver<T>,
}

/// An iterator over the values that were there when it was made. [`Receiver::drain`] makes it.
#[must_use = "it does nothing until it is iterated over"]
pub struct Drain<'a, T> {
    pub(super) receiver: &'a Receiver<T>,
    /// How many further values it takes at most.
    pub(super) left: usize,
}

/// An iterator that owns a receiver, over the values that it receives. [`Receiver::into_iter`] makes it.
#[must_use = "it does nothing until it is iterated over"]
pub struct IntoIter<T> {
    receiver: Receiver<T>,
}

impl<T> Iterator for Iter<'_, T> {
    type Item = T;

    fn next(&mut self) -> Option<T> {
        self.receiver.recv().ok()
    }
}

impl<T> Iterator for TryIter<'_, T> {
    type Item = T;

    fn next(&mut self) -> Option<T> {
        self.receiver.try_recv().ok()
    }
}

impl<T> Iterator for Drain<'_, T> {
    type Item = T;

    fn next(&mut self) -> Option<T> {
        self.left = self.left.checked_sub(1)?;
        let value = self.receiver.try_recv().ok();
        if value.is_none() {
            self.left = 0;
        }
        value
    }

    fn size_hint(&self) -> (usize, Option<usize>) {
        (0, Some(self.left))
    }
}

impl<T> Iterator for IntoIter<T> {
    type Item = T;

    fn next(&mut self) -> Option<T> {
        self.receiver.recv().ok()
    }
}

impl<T> FusedIterator for Iter<'_, T> {}
impl<T> FusedIterator for Drain<'_, T> {}
impl<T> FusedIterator for IntoIter<T> {}

impl<T> IntoIterator for Receiver<T> {
    type Item = T;
    type IntoIter = IntoIter<T>;

    fn into_iter(self) -> IntoIter<T> {
        IntoIter { receiver: self }
    }
}

impl<'a, T> IntoIterator for &'a Receiver<T> {
    type Item = T;
    type IntoIter = Iter<'a, T>;

    fn into_iter(self) -> Iter<'a, T> {
        self.iter()
    }
}

written! {
    Debug [T] Iter<'_, T>: |_| "Iter { .. }";
    Debug [T] TryIter<'_, T>: |_| "TryIter { .. }";
    Debug [T] Drain<'_, T>: |_| "Drain { .. }";
    Debug [T] IntoIter<T>: |_| "IntoIter { .. }";
}
