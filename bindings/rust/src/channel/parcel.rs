//! A value whose sender waits.
use super::shared::Shared;
use super::store::{Refused, Ticket};
use super::system::Waiters;
use std::mem;
use std::sync::Arc;

/// A value for which there was no room.
pub(super) enum Parcel<T> {
    /// It waits for room.
    Here(T),
    /// The channel has no room at all, so it waits for a receiver.
    Offered(Ticket),
    Gone,
}

impl<T> Shared<T> {
    pub(super) fn parcel(&self, value: T, who: u64) -> Parcel<T> {
        let Some(meeting) = self.store.meeting() else {
            return Parcel::Here(value);
        };
        Parcel::Offered(meeting.offer(value, who))
    }
}

impl<T> Parcel<T> {
    /// Where its sender waits, if that is not the list of all senders that wait for room.
    pub(super) fn bell(&self) -> Option<Arc<Waiters>> {
        match self {
            Parcel::Offered(offer) => Some(Arc::clone(&offer.bell)),
            _ => None,
        }
    }

    /// Sends it if that is possible now.
    pub(super) fn look(&mut self, shared: &Shared<T>, who: u64) -> Option<Result<(), Refused<T>>> {
        match mem::replace(self, Parcel::Gone) {
            // (it takes no lock if there is no room)
            Parcel::Here(value) if shared.store.seems_full() && !shared.is_closed() => {
                *self = Parcel::Here(value);
                None
            }
            Parcel::Here(value) => match shared.put(None, value, who) {
                Err(Refused::Full(value)) => {
                    *self = Parcel::Here(value);
                    None
                }
                sent => Some(sent),
            },
            Parcel::Offered(offer) => {
                let sent = shared.store.meeting()?.outcome(&offer);
                if sent.is_none() {
                    *self = Parcel::Offered(offer);
                }
                sent
            }
            Parcel::Gone => None,
        }
    }

    /// The value, unless it is sent.
    pub(super) fn take_back(self, shared: &Shared<T>) -> Option<T> {
        match self {
            Parcel::Here(value) => Some(value),
            Parcel::Offered(offer) => shared.store.meeting()?.take_back(&offer),
            Parcel::Gone => None,
        }
    }
}
