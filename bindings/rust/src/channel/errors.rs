//! The errors of a channel, with the names that `crossbeam-channel` has for its own.
use std::error::Error;

/// The channel is closed, all receivers are gone, or there is no memory for it. The field is the value not sent.
#[derive(Clone, Copy, PartialEq, Eq)]
pub struct SendError<T>(pub T);

/// Why a value was not sent at once. The value is in the error.
#[derive(Clone, Copy, PartialEq, Eq)]
pub enum TrySendError<T> {
    /// There is no room, with bound 0 no receiver waits, or there is no memory for it.
    Full(T),
    /// The channel is closed, or all receivers are gone.
    Disconnected(T),
}

/// Why a value was not sent in time. The value is in the error.
#[derive(Clone, Copy, PartialEq, Eq)]
pub enum SendTimeoutError<T> {
    /// There was no room until then, with bound 0 no receiver, or there is no memory for it.
    Timeout(T),
    /// The channel is closed, or all receivers are gone.
    Disconnected(T),
}

/// Nothing is left, and nothing comes: the channel is closed or all senders are gone, and no [`Job`](super::Job) is open.
#[derive(Clone, Copy, PartialEq, Eq, Debug)]
pub struct RecvError;

/// Why no value was received at once.
#[derive(Clone, Copy, PartialEq, Eq, Debug)]
pub enum TryRecvError {
    /// Nothing is there so far.
    Empty,
    /// Nothing is left, and nothing comes.
    Disconnected,
}

/// Why no value was received in time.
#[derive(Clone, Copy, PartialEq, Eq, Debug)]
pub enum RecvTimeoutError {
    /// Nothing was received until then.
    Timeout,
    /// Nothing is left, and nothing comes.
    Disconnected,
}

impl<T> SendError<T> {
    /// Returns the value that was not sent.
    pub fn into_inner(self) -> T {
        self.0
    }
}

impl<T> TrySendError<T> {
    /// Returns the value that was not sent.
    pub fn into_inner(self) -> T {
        match self {
            TrySendError::Full(value) | TrySendError::Disconnected(value) => value,
        }
    }

    /// Whether it is [`TrySendError::Full`].
    pub fn is_full(&self) -> bool {
        matches!(self, TrySendError::Full(_))
    }

    /// Whether it is [`TrySendError::Disconnected`].
    pub fn is_disconnected(&self) -> bool {
        matches!(self, TrySendError::Disconnected(_))
    }
}

impl<T> SendTimeoutError<T> {
    /// Returns the value that was not sent.
    pub fn into_inner(self) -> T {
        match self {
            SendTimeoutError::Timeout(value) | SendTimeoutError::Disconnected(value) => value,
        }
    }

    /// Whether it is [`SendTimeoutError::Timeout`].
    pub fn is_timeout(&self) -> bool {
        matches!(self, SendTimeoutError::Timeout(_))
    }

    /// Whether it is [`SendTimeoutError::Disconnected`].
    pub fn is_disconnected(&self) -> bool {
        matches!(self, SendTimeoutError::Disconnected(_))
    }
}

impl TryRecvError {
    /// Whether it is [`TryRecvError::Empty`].
    #[must_use]
    pub fn is_empty(&self) -> bool {
        *self == TryRecvError::Empty
    }

    /// Whether it is [`TryRecvError::Disconnected`].
    #[must_use]
    pub fn is_disconnected(&self) -> bool {
        *self == TryRecvError::Disconnected
    }
}

impl RecvTimeoutError {
    /// Whether it is [`RecvTimeoutError::Timeout`].
    #[must_use]
    pub fn is_timeout(&self) -> bool {
        *self == RecvTimeoutError::Timeout
    }

    /// Whether it is [`RecvTimeoutError::Disconnected`].
    #[must_use]
    pub fn is_disconnected(&self) -> bool {
        *self == RecvTimeoutError::Disconnected
    }
}

impl<T> From<SendError<T>> for TrySendError<T> {
    fn from(why: SendError<T>) -> Self {
        TrySendError::Disconnected(why.0)
    }
}

impl<T> From<SendError<T>> for SendTimeoutError<T> {
    fn from(why: SendError<T>) -> Self {
        SendTimeoutError::Disconnected(why.0)
    }
}

impl From<RecvError> for TryRecvError {
    fn from(_: RecvError) -> Self {
        TryRecvError::Disconnected
    }
}

impl From<RecvError> for RecvTimeoutError {
    fn from(_: RecvError) -> Self {
        RecvTimeoutError::Disconnected
    }
}

/// Implements traits of `std::fmt`, each by the text that it writes.
macro_rules! written {
    ($($trait:ident [$($t:ident)?] $of:ty: $text:expr;)*) => {$(
        impl<$($t)?> std::fmt::$trait for $of {
            fn fmt(&self, f: &mut std::fmt::Formatter<'_>) -> std::fmt::Result {
                let text: fn(&Self) -> &'static str = $text;
                f.write_str(text(self))
            }
        }
    )*};
}
pub(super) use written;

const SEND_CLOSED: &str = "sending on a disconnected channel";
const RECV_CLOSED: &str = "receiving on an empty and disconnected channel";

// (`Debug` is among them, so that `T` needs no `Debug`)
written! {
    Display [T] SendError<T>: |_| SEND_CLOSED;
    Display [T] TrySendError<T>: |it| if it.is_full() { "sending on a full channel" } else { SEND_CLOSED };
    Display [T] SendTimeoutError<T>: |it| if it.is_timeout() { "timed out waiting on send operation" } else { SEND_CLOSED };
    Display [] RecvError: |_| RECV_CLOSED;
    Display [] TryRecvError: |it| if it.is_empty() { "receiving on an empty channel" } else { RECV_CLOSED };
    Display [] RecvTimeoutError: |it| if it.is_timeout() { "timed out waiting on receive operation" } else { RECV_CLOSED };
    Debug [T] SendError<T>: |_| "SendError(..)";
    Debug [T] TrySendError<T>: |it| if it.is_full() { "Full(..)" } else { "Disconnected(..)" };
    Debug [T] SendTimeoutError<T>: |it| if it.is_timeout() { "Timeout(..)" } else { "Disconnected(..)" };
}

impl<T> Error for SendError<T> {}
impl<T> Error for TrySendError<T> {}
impl<T> Error for SendTimeoutError<T> {}
impl Error for RecvError {}
impl Error for TryRecvError {}
impl Error for RecvTimeoutError {}
