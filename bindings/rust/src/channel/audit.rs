//! Who sent what, who took it, and what is left.
use super::errors::written;
use super::system::{Panics, lock};
use std::collections::{BTreeMap, VecDeque};
use std::fmt;
use std::mem;
use std::sync::{Arc, Mutex, MutexGuard};

/// So many accounts that nobody asked for are kept at most, the newest ones.
const KEPT: usize = 16;

/// Stands in place of a sender's number if a job gave the value back.
pub(super) const GIVEN_BACK: u64 = u64::MAX;

/// What became of some values that follow one another. [`Audit::accounts`] hands it out. Its `Debug` shows how many values
/// are left, but not the values. So `T` needs no `Debug`.
#[derive(Clone, PartialEq, Eq)]
#[non_exhaustive]
pub struct Account<T> {
    /// What became of each value, in the order sent.
    pub fates: Vec<Fate>,
    /// The values that nobody took, in the order sent. There are some only after all receivers were dropped.
    pub left: Vec<T>,
}

/// What became of one value.
#[derive(Clone, Copy, PartialEq, Eq, Hash, Debug)]
#[non_exhaustive]
pub struct Fate {
    /// The [number](super::Sender::number) of the sender. It is `None` if a [`Job`](super::Job) gave the value back.
    pub sender: Option<u64>,
    /// The [number](super::Receiver::number) of the receiver that took it. It is `None` if the value is left.
    pub receiver: Option<u64>,
}

/// The counts of all values that were taken or are left. There is an entry for each end that sent or took a value that is
/// counted.
#[derive(Clone, PartialEq, Eq, Default, Debug)]
#[non_exhaustive]
pub struct Totals {
    /// How many values each sender sent.
    pub sent: BTreeMap<u64, u64>,
    /// How many values jobs gave back.
    pub given_back: u64,
    /// How many values each receiver took.
    pub taken: BTreeMap<u64, u64>,
    /// How many values nobody took.
    pub left: u64,
    /// How many values are in no account, for lack of memory. They are in the other counts.
    pub unknown: u64,
}

/// The accounts of a channel. [`Builder::audited`](super::Builder::audited) makes it.
///
/// An account is made when 1,024 values were taken since the last one ([`Builder::account`](super::Builder::account) sets
/// another number), or when the last receiver is dropped. They come in the order of their values. Of those that nobody
/// asked for the newest 16 are kept, and older ones are in the [totals](Audit::totals) alone. Each call takes the lock of
/// the accounts.
pub struct Audit<T> {
    ledger: Arc<Ledger<T>>,
}

pub(super) struct Ledger<T> {
    book: Mutex<Book<T>>,
}

struct Book<T> {
    /// What became of the values of the account that is not made yet.
    fates: Vec<Fate>,
    /// How many values go into an account.
    each: usize,
    accounts: VecDeque<Account<T>>,
    /// How many accounts are kept at most: 0 after the audit was dropped.
    kept: usize,
    totals: Totals,
}

/// A book that nobody else writes.
pub(super) struct Open<'a, T>(MutexGuard<'a, Book<T>>);

impl<T> Audit<T> {
    pub(super) fn new(each: usize) -> (Audit<T>, Arc<Ledger<T>>) {
        let book = Mutex::new(Book {
            fates: Vec::new(),
            each,
            accounts: VecDeque::new(),
            kept: KEPT,
            totals: Totals::default(),
        });
        let ledger = Arc::new(Ledger { book });
        let audit = Audit {
            ledger: Arc::clone(&ledger),
        };
        (audit, ledger)
    }

    /// The accounts that were made since the last call and still wait, each once.
    #[must_use = "each account is handed out once"]
    pub fn accounts(&self) -> Vec<Account<T>> {
        std::mem::take(&mut lock(&self.ledger.book).accounts).into()
    }

    /// The counts so far.
    #[must_use]
    pub fn totals(&self) -> Totals {
        lock(&self.ledger.book).totals.clone()
    }
}

impl<T> Drop for Audit<T> {
    fn drop(&mut self) {
        lock(&self.ledger.book).kept = 0;
        drop_left(self.accounts());
    }
}

/// Drops the values that are left in accounts. No lock is held then, and each is dropped, also if the drop of one panics.
fn drop_left<T>(accounts: impl IntoIterator<Item = Account<T>>) {
    let mut panics = Panics::default();
    panics.drop_each(accounts.into_iter().flat_map(|it| it.left));
    panics.resume();
}

impl<T> Ledger<T> {
    /// Counts a value that went from hand to hand.
    pub(super) fn count(&self, sender: u64, receiver: Option<u64>) {
        lock(&self.book).totals.add(Fate::new(sender, receiver));
    }

    /// Opens the book, for values that are taken in their order.
    pub(super) fn open(&self) -> Open<'_, T> {
        Open(lock(&self.book))
    }

    /// Makes the last account, with what is left and the numbers of its senders.
    pub(super) fn close(&self, left: Vec<(T, u64)>) {
        let mut book = lock(&self.book);
        let (left, senders): (Vec<_>, Vec<_>) = left.into_iter().unzip();
        for sender in senders {
            book.add(Fate::new(sender, None));
        }
        let old = book.make_account(left);
        drop(book);
        drop_left(old);
    }
}

impl<T> Book<T> {
    fn add(&mut self, fate: Fate) {
        self.totals.add(fate);
        match self.fates.try_reserve(1) {
            Ok(()) => self.fates.push(fate),
            Err(_) => self.totals.unknown += 1,
        }
    }

    /// Makes an account of what was written, unless that is nothing. Returns an old one for which there is no room.
    fn make_account(&mut self, left: Vec<T>) -> Option<Account<T>> {
        if self.fates.is_empty() && left.is_empty() {
            return None;
        }
        let fates = mem::take(&mut self.fates);
        self.accounts.push_back(Account { fates, left });
        let is_over = self.accounts.len() > self.kept;
        is_over.then(|| self.accounts.pop_front()).flatten()
    }
}

impl<T> Open<'_, T> {
    /// Writes who sent and who took a value.
    pub(super) fn write(mut self, sender: u64, receiver: u64) {
        self.0.add(Fate::new(sender, Some(receiver)));
        if self.0.fates.len() >= self.0.each {
            let old = self.0.make_account(Vec::new());
            drop(self);
            drop_left(old);
        }
    }
}

impl Fate {
    fn new(sender: u64, receiver: Option<u64>) -> Fate {
        let sender = (sender != GIVEN_BACK).then_some(sender);
        Fate { sender, receiver }
    }
}

impl Totals {
    fn add(&mut self, fate: Fate) {
        match fate.sender {
            Some(sender) => *self.sent.entry(sender).or_default() += 1,
            None => self.given_back += 1,
        }
        match fate.receiver {
            Some(receiver) => *self.taken.entry(receiver).or_default() += 1,
            None => self.left += 1,
        }
    }
}

impl<T> fmt::Debug for Account<T> {
    fn fmt(&self, f: &mut fmt::Formatter<'_>) -> fmt::Result {
        f.debug_struct("Account")
            .field("fates", &self.fates)
            .field("left", &format_args!("[..; {}]", self.left.len()))
            .finish()
    }
}

written! { Debug [T] Audit<T>: |_| "Audit { .. }"; }
