//! The queues with which mailboxes are compared, with one trait for all.
use crossbeam_queue::{ArrayQueue, SegQueue};
use std::collections::VecDeque;
use std::sync::mpsc::{channel, Receiver, Sender};
use std::sync::{Mutex, PoisonError};

/// A queue that threads share.
pub trait Queue<T>: Sync {
    /// Puts a value at the end. The queue has room for it.
    fn put(&self, value: T);
    /// Takes the first value, if there is one.
    fn take(&self) -> Option<T>;
}

impl<T: Send> Queue<T> for SegQueue<T> {
    fn put(&self, value: T) {
        self.push(value);
    }

    fn take(&self) -> Option<T> {
        self.pop()
    }
}

impl<T: Send> Queue<T> for ArrayQueue<T> {
    fn put(&self, value: T) {
        assert!(self.push(value).is_ok(), "there is room for each value");
    }

    fn take(&self) -> Option<T> {
        self.pop()
    }
}

impl<T: Send> Queue<T> for Mutex<VecDeque<T>> {
    fn put(&self, value: T) {
        let mut values = self.lock().unwrap_or_else(PoisonError::into_inner);
        values.push_back(value);
    }

    fn take(&self) -> Option<T> {
        let mut values = self.lock().unwrap_or_else(PoisonError::into_inner);
        values.pop_front()
    }
}

/// The channel of the standard library. Its receiver is for one thread alone, so it has a lock round it.
pub struct Channel<T> {
    sender: Sender<T>,
    receiver: Mutex<Receiver<T>>,
}

impl<T> Channel<T> {
    pub fn new() -> Channel<T> {
        let (sender, receiver) = channel();
        Channel {
            sender,
            receiver: Mutex::new(receiver),
        }
    }
}

impl<T: Send> Queue<T> for Channel<T> {
    fn put(&self, value: T) {
        assert!(self.sender.send(value).is_ok(), "the receiver is there");
    }

    fn take(&self) -> Option<T> {
        let receiver = self.receiver.lock().unwrap_or_else(PoisonError::into_inner);
        receiver.try_recv().ok()
    }
}
