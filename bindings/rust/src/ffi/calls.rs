//! The calls of the archives, as `bindings/c/hazbultra.h` and `hazbultra_channel.h` declare them. CI compares them, name by
//! name.
use super::ends::End;
use super::handle::Handle;
use super::word::Word;
use std::mem::offset_of;

/// How large a mailbox is.
#[repr(C)]
pub(crate) struct Setup {
    pub(crate) producers: u64,
    pub(crate) consumers: u64,
    pub(crate) cells: u64,
    pub(crate) pairs: u64,
    pub(crate) table: u32,
    pub(crate) fast: bool,
    pub(crate) last: bool,
}

/// Of one lane of a report.
#[repr(C)]
#[derive(Default)]
pub(super) struct Lane {
    pub(super) put: u64,
    pub(super) left: u64,
    pub(super) ended: bool,
}

/// Of one consumer on one lane.
#[repr(C)]
#[derive(Default)]
pub(super) struct Diary {
    pub(super) notes: u64,
    pub(super) begun: bool,
}

/// The end of a claim.
#[repr(C)]
#[derive(Clone, Copy, Default)]
pub(super) struct Note {
    pub(super) value: u64,
    pub(super) kind: u32,
}

/// How many producers and consumers were not returned.
#[repr(C)]
#[derive(Default)]
pub(super) struct Missing {
    pub(super) producers: u32,
    pub(super) consumers: u32,
}

/// What a call of a channel leaves to do.
#[repr(C)]
#[derive(Clone, Copy, Default)]
pub(super) struct Wake {
    pub(super) place: u64,
    pub(super) threads: u32,
    pub(super) owes: u32,
}

pub(super) const DONE: u32 = 0;
pub(super) const TOOK: u32 = 1;
pub(super) const LOST: u32 = 2;
pub(super) const UNDECIDED: u32 = 3;
pub(super) const NOTHING: u32 = 4;
pub(super) const ENDED: u32 = 5;
pub(super) const SPENT: u32 = 6;
pub(super) const NO_LANE: u32 = 7;
pub(super) const LINKED: u32 = 8;
pub(super) const FULL: u32 = 9;
pub(super) const CLOSED: u32 = 10;
pub(super) const AGAIN: u32 = 12;
pub(super) const NO_MEMORY: u32 = 16;
pub(super) const ALL_GIVEN: u32 = 18;
pub(super) const MISSING: u32 = 19;
pub(super) const BAD_PRODUCERS: u32 = 33;
pub(super) const BAD_CONSUMERS: u32 = 34;
pub(super) const BAD_CELLS: u32 = 35;
pub(super) const BAD_PAIRS: u32 = 36;

pub(crate) const UNARY: u32 = 0;
pub(crate) const BITS: u32 = 1;
pub(crate) const MIDDLE: u32 = 2;

// The sizes and offsets are those that a C compiler gives the structs of the header.
const _: () = {
    assert!(size_of::<Setup>() == 40);
    assert!(offset_of!(Setup, producers) == 0 && offset_of!(Setup, consumers) == 8);
    assert!(offset_of!(Setup, cells) == 16 && offset_of!(Setup, pairs) == 24);
    assert!(offset_of!(Setup, table) == 32);
    assert!(offset_of!(Setup, fast) == 36 && offset_of!(Setup, last) == 37);
    assert!(size_of::<Lane>() == 24);
    assert!(offset_of!(Lane, put) == 0 && offset_of!(Lane, left) == 8);
    assert!(offset_of!(Lane, ended) == 16);
    assert!(size_of::<Diary>() == 16);
    assert!(offset_of!(Diary, notes) == 0 && offset_of!(Diary, begun) == 8);
    assert!(size_of::<Note>() == 16);
    assert!(offset_of!(Note, value) == 0 && offset_of!(Note, kind) == 8);
    assert!(size_of::<Wake>() == 16);
    assert!(offset_of!(Wake, place) == 0 && offset_of!(Wake, threads) == 8);
    assert!(offset_of!(Wake, owes) == 12);
    assert!(size_of::<Missing>() == 8);
    assert!(offset_of!(Missing, producers) == 0 && offset_of!(Missing, consumers) == 4);
};

unsafe extern "C" {
    pub(super) fn hz_mailbox_new(id: u64, setup: &Setup, hub: &mut Handle) -> u32;
    pub(super) fn hz_producer_new(hub: &mut Handle, producer: &mut Handle, lane: &mut u64) -> u32;
    pub(super) fn hz_consumer_new(
        hub: &mut Handle,
        seed: &[u8; 32],
        consumer: &mut Handle,
        number: &mut u64,
    ) -> u32;
    pub(super) fn hz_put(producer: &mut Handle, item: Word) -> u32;
    pub(super) fn hz_finish(producer: &mut Handle) -> u32;
    pub(super) fn hz_poll(consumer: &mut Handle, lane: u64, budget: u64, value: &mut Word) -> u32;
    pub(super) fn hz_take(consumer: &mut Handle, lane: u64, most: u64, value: &mut Word) -> u32;
    pub(super) fn hz_take_back(hub: &mut Handle, part: &mut Handle) -> u32;
    pub(super) fn hz_gather(hub: &mut Handle, report: &mut Handle, missing: &mut Missing) -> u32;
    pub(super) fn hz_report_size(report: &mut Handle, lanes: &mut u64, consumers: &mut u64) -> u32;
    pub(super) fn hz_report_lane(report: &mut Handle, lane: u64, out: &mut Lane) -> u32;
    pub(super) fn hz_report_diary(
        report: &mut Handle,
        consumer: u64,
        lane: u64,
        out: &mut Diary,
    ) -> u32;
    pub(super) fn hz_report_items(
        report: &mut Handle,
        lane: u64,
        left: bool,
        from: u64,
        items: *mut Word,
        room: usize,
        copied: &mut u64,
    ) -> u32;
    pub(super) fn hz_report_notes(
        report: &mut Handle,
        consumer: u64,
        lane: u64,
        from: u64,
        notes: *mut Note,
        room: usize,
        copied: &mut u64,
    ) -> u32;
    pub(super) fn hz_free(handle: &mut Handle);

    pub(super) fn hz_channel_new(sender: &mut End, receiver: &mut End) -> u32;
    pub(super) fn hz_channel_another(end: &mut End, other: &mut End) -> u32;
    pub(super) fn hz_channel_send(sender: &mut End, value: Word, wake: &mut Wake) -> u32;
    pub(super) fn hz_channel_try_receive(receiver: &mut End, value: &mut Word) -> u32;
    pub(super) fn hz_channel_pay(end: &mut End, wake: &mut Wake) -> u32;
    pub(super) fn hz_channel_close(sender: &mut End, wake: &mut Wake) -> u32;
    pub(super) fn hz_channel_free(end: &mut End, wake: &mut Wake) -> u32;
}

/// A number of the archive's. This compiles only if `usize` has 64 bits too.
pub(crate) fn number(word: u64) -> usize {
    usize::from_ne_bytes(word.to_ne_bytes())
}

/// For a code that `hazbultra.h` excludes at this call.
pub(super) fn excluded(call: &str, code: u32) -> ! {
    unreachable!("{call} returned {code}, which its header excludes here")
}

/// For a call that returns [`DONE`] alone here.
pub(super) fn expect_done(call: &str, code: u32) {
    if code != DONE {
        excluded(call, code)
    }
}
