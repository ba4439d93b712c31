//! A report of the archive, read into one of Rust.
use super::calls::{self, excluded, expect_done, hz_report_diary, hz_report_items};
use super::calls::{Diary, Lane, hz_report_lane, hz_report_notes, hz_report_size, number};
use super::handle::Handle;
use super::word::Word;
use crate::report::{self, LaneReport, Note};

/// The diaries of a report, by consumers, and for each by lanes.
pub(super) fn read_diaries(report: &mut Handle) -> Vec<report::Diary> {
    let (lanes, consumers) = read_size(report);
    (0..consumers)
        .flat_map(|consumer| (0..lanes).map(move |lane| (consumer, lane)))
        .map(|(consumer, lane)| read_diary(report, consumer, lane))
        .collect()
}

/// The lanes of a report, in which each item that is left is a value again. The report is used up.
///
/// # Safety
/// The handle leads to a report of a mailbox whose items are words of values of `T`, and no other report of it is read.
pub(super) unsafe fn read_lanes<T>(mut report: Handle) -> Vec<LaneReport<T>> {
    let (lanes, _) = read_size(&mut report);
    // All words are read before the first of them becomes a value.
    let read: Vec<_> = (0..lanes)
        .map(|lane| read_lane(&mut report, lane))
        .collect();
    read.into_iter()
        .map(|(lane, left)| LaneReport {
            put: number(lane.put),
            ended: lane.ended,
            left: left
                .into_iter()
                // SAFETY: ownership. `Word::pack` made the item of a `T`, no consumer took it, and after the end of the
                // mailbox none can. It stands in the list of what is left once, and the list is read once.
                .map(|word| unsafe { word.unpack() })
                .collect(),
        })
        .collect()
}

/// How many lanes and consumers there are.
fn read_size(report: &mut Handle) -> (u64, u64) {
    let (mut lanes, mut consumers) = (0, 0);
    // SAFETY: the rules of calls.
    let code = unsafe { hz_report_size(report, &mut lanes, &mut consumers) };
    expect_done("hz_report_size", code);
    (lanes, consumers)
}

/// The numbers of a lane, and the words that are left of it.
fn read_lane(report: &mut Handle, lane: u64) -> (Lane, Vec<Word>) {
    let mut numbers = Lane::default();
    // SAFETY: the rules of calls.
    let code = unsafe { hz_report_lane(report, lane, &mut numbers) };
    expect_done("hz_report_lane", code);
    let mut left = vec![Word::EMPTY; number(numbers.left)];
    let mut copied = 0;
    // SAFETY: the rules of calls. There is room for as many words as the vector has.
    let code = unsafe {
        let (items, room) = (left.as_mut_ptr(), left.len());
        hz_report_items(report, lane, true, 0, items, room, &mut copied)
    };
    expect_done("hz_report_items", code);
    assert_eq!(number(copied), left.len());
    (numbers, left)
}

/// The notes of a consumer on a lane.
fn read_diary(report: &mut Handle, consumer: u64, lane: u64) -> report::Diary {
    let mut numbers = Diary::default();
    // SAFETY: the rules of calls.
    let code = unsafe { hz_report_diary(report, consumer, lane, &mut numbers) };
    expect_done("hz_report_diary", code);
    let mut notes = vec![calls::Note::default(); number(numbers.notes)];
    let mut copied = 0;
    // SAFETY: the rules of calls. There is room for as many notes as the vector has.
    let code = unsafe {
        let (at, room) = (notes.as_mut_ptr(), notes.len());
        hz_report_notes(report, consumer, lane, 0, at, room, &mut copied)
    };
    expect_done("hz_report_notes", code);
    assert_eq!(number(copied), notes.len());
    report::Diary {
        consumer: number(consumer),
        lane: number(lane),
        notes: notes.into_iter().map(note_of).collect(),
        begun: numbers.begun,
    }
}

fn note_of(note: calls::Note) -> Note {
    match note.kind {
        calls::TOOK => Note::Took,
        calls::LOST => Note::Lost(number(note.value)),
        calls::UNDECIDED => Note::Undecided,
        other => excluded("hz_report_notes", other),
    }
}
