//! A consumer of a mailbox in which each claim is one exchange. One call takes an item, past the items that it loses.

use crate::layout::CELLS;
use crate::mailbox::{END, LANES, Mailbox};
use std::sync::atomic::Ordering::SeqCst;

/// The byte that notes that the consumer took an item. If it lost the item, the byte is the winner's number.
const TOOK: u8 = 255;

/// The result of a take.
pub enum Take {
    Took(u64),
    Nothing,
    Ended,
    Spent,
}

/// A consumer's cursor on a lane, its notes there, a byte each, and the items that it took there.
struct Lane {
    /// The link that led to the last cell that it met, or 0 if it met none.
    at: u64,
    notes: Box<[u8]>,
    noted: usize,
    items: Vec<u64>,
}

pub struct Taker {
    number: u32,
    lanes: Vec<Lane>,
}

impl Taker {
    pub fn new(number: u32) -> Taker {
        let lane = || Lane { at: 0, notes: Box::new([0; CELLS]), noted: 0, items: Vec::with_capacity(CELLS) };
        Taker { number, lanes: (0..LANES).map(|_| lane()).collect() }
    }

    /// Takes the next item that it wins, past those that it loses, if one is linked and `most` accesses suffice.
    #[inline(never)]
    pub fn take(&mut self, mailbox: &Mailbox, p: usize, most: u64) -> Take {
        let Lane { at, notes, noted, items } = &mut self.lanes[p];
        let links = &mailbox.links[..];
        let claims = &mailbox.claims[..links.len()];
        let mine = u64::from(self.number) + 1;
        let (mut last, mut count, mut left) = (*at, *noted, most);
        let mut link = if last == 0 { &mailbox.heads[p] } else { &links[last as usize - 1] }.load(SeqCst);
        let end = loop {
            let cell = link.wrapping_sub(1) as usize;
            if cell >= links.len() {
                break if link == END { Take::Ended } else { Take::Nothing };
            }
            // (three accesses: the link just loaded, the exchange, and the item or the next link)
            if left < 3 {
                break Take::Spent;
            }
            left -= 2;
            last = link;
            if let Err(found) = claims[cell].compare_exchange(0, mine, SeqCst, SeqCst) {
                notes[count] = (found - 1) as u8;
                count += 1;
                link = links[cell].load(SeqCst);
                continue;
            }
            let item = mailbox.items[cell].load(SeqCst);
            notes[count] = TOOK;
            count += 1;
            items.push(item);
            break Take::Took(item);
        };
        (*at, *noted) = (last, count);
        end
    }
}
