//! What both kinds of ends have, by a macro.

macro_rules! ends {
    ($end:ident, $weak:ident) => {
        impl<T> $end<T> {
            /// Its number in the channel's [audit](super::Audit). No other end of its side has it.
            ///
            /// ```
            /// let (sender, receiver) = hazbultra::channel::unbounded::<u8>();
            /// assert_eq!([sender.number(), sender.clone().number()], [0, 1]);
            /// assert_eq!([receiver.number(), receiver.clone().number()], [0, 1]);
            /// ```
            #[must_use]
            pub fn number(&self) -> u64 {
                self.number
            }

            /// How many values wait, at one moment of this call. For that it lets all ends stand still. With bound 0 only those
            /// count that jobs gave back, or that were left for a future that was dropped.
            ///
            /// ```
            /// let (sender, receiver) = hazbultra::channel::unbounded();
            /// sender.send("a letter").unwrap();
            /// assert_eq!((sender.len(), receiver.len()), (1, 1));
            /// ```
            #[must_use]
            pub fn len(&self) -> usize {
                self.shared.len()
            }

            /// Whether no value waits, at one moment of this call, as [`len`](Self::len) counts.
            ///
            /// ```
            /// let (sender, receiver) = hazbultra::channel::unbounded();
            /// assert!(sender.is_empty() && receiver.is_empty());
            /// sender.send("a letter").unwrap();
            /// assert!(!sender.is_empty() && !receiver.is_empty());
            /// ```
            #[must_use]
            pub fn is_empty(&self) -> bool {
                self.len() == 0
            }

            /// Whether as many values wait as the bound allows. Without a bound it is false, and with bound 0 it is true.
            ///
            /// ```
            /// let (sender, receiver) = hazbultra::channel::bounded(1);
            /// assert!(!sender.is_full());
            /// sender.send("a letter").unwrap();
            /// assert!(sender.is_full() && receiver.is_full());
            /// ```
            #[must_use]
            pub fn is_full(&self) -> bool {
                self.shared.is_full()
            }

            /// The bound, if there is one.
            ///
            /// ```
            /// use hazbultra::channel::{bounded, unbounded};
            ///
            /// assert_eq!(bounded::<u8>(7).0.capacity(), Some(7));
            /// assert_eq!(unbounded::<u8>().1.capacity(), None);
            /// ```
            #[must_use]
            pub fn capacity(&self) -> Option<usize> {
                self.shared.store.bound()
            }

            /// Whether the other one is an end of the same channel.
            ///
            /// ```
            /// let (sender, _receiver) = hazbultra::channel::unbounded::<u8>();
            /// let (other, _others) = hazbultra::channel::unbounded();
            /// assert!(sender.same_channel(&sender.clone()));
            /// assert!(!sender.same_channel(&other));
            /// ```
            #[must_use]
            pub fn same_channel(&self, other: &Self) -> bool {
                Arc::ptr_eq(&self.shared, &other.shared)
            }

            /// How many senders there are.
            ///
            /// ```
            /// let (sender, receiver) = hazbultra::channel::unbounded::<u8>();
            /// let _other = sender.clone();
            /// assert_eq!(receiver.sender_count(), 2);
            /// ```
            #[must_use]
            pub fn sender_count(&self) -> usize {
                self.shared.senders.count()
            }

            /// How many receivers there are.
            ///
            /// ```
            /// let (sender, receiver) = hazbultra::channel::unbounded::<u8>();
            /// drop(receiver);
            /// assert_eq!(sender.receiver_count(), 0);
            /// ```
            #[must_use]
            pub fn receiver_count(&self) -> usize {
                self.shared.receivers.count()
            }

            /// Closes the channel: no value is sent after this, and sends that wait get their values back. Receivers get
            /// what is left, and then an error. Returns whether the channel was open, so that values could be sent.
            ///
            /// It takes the lock under which ends are made, and those of the lists of sleepers.
            ///
            /// ```
            /// use hazbultra::channel::{unbounded, RecvError, SendError};
            ///
            /// let (sender, receiver) = unbounded();
            /// sender.send(1).unwrap();
            /// assert!(receiver.close());
            /// assert!(!sender.close());
            /// assert_eq!(sender.send(2), Err(SendError(2)));
            /// assert_eq!([receiver.recv(), receiver.recv()], [Ok(1), Err(RecvError)]);
            /// ```
            pub fn close(&self) -> bool {
                self.shared.close()
            }

            /// Whether no value can be sent any more: the channel was [closed](Self::close), or all ends of one side are
            /// gone. Values may be left.
            ///
            /// ```
            /// let (sender, receiver) = hazbultra::channel::unbounded::<u8>();
            /// assert!(!sender.is_closed());
            /// drop(sender);
            /// assert!(receiver.is_closed());
            /// ```
            #[must_use]
            pub fn is_closed(&self) -> bool {
                self.shared.is_closed()
            }

            /// An end that does not keep the channel open.
            ///
            /// ```
            /// let (sender, receiver) = hazbultra::channel::unbounded();
            /// let (weak, weak_receiver) = (sender.downgrade(), receiver.downgrade());
            /// weak.upgrade().unwrap().send(1).unwrap();
            /// assert_eq!(weak_receiver.upgrade().unwrap().recv(), Ok(1));
            /// drop(sender);
            /// assert!(receiver.recv().is_err() && weak.upgrade().is_none());
            /// ```
            #[must_use]
            pub fn downgrade(&self) -> $weak<T> {
                let shared = Arc::clone(&self.shared);
                $weak { shared }
            }
        }

        impl<T> Clone for $end<T> {
            fn clone(&self) -> Self {
                $end::new(Arc::clone(&self.shared))
            }
        }

        impl<T> UnwindSafe for $end<T> {}
        impl<T> RefUnwindSafe for $end<T> {}

        /// An end that does not keep the channel open. A `downgrade` makes it. It keeps some memory of the channel, but no
        /// values.
        pub struct $weak<T> {
            shared: Arc<Shared<T>>,
        }

        impl<T> $weak<T> {
            /// A further end, which counts. It is `None` if all ends of this side are gone.
            #[must_use]
            pub fn upgrade(&self) -> Option<$end<T>> {
                $end::join(Arc::clone(&self.shared))
            }
        }

        impl<T> Clone for $weak<T> {
            fn clone(&self) -> Self {
                let shared = Arc::clone(&self.shared);
                $weak { shared }
            }
        }

        impl<T> UnwindSafe for $weak<T> {}
        impl<T> RefUnwindSafe for $weak<T> {}
    };
}
pub(super) use ends;
