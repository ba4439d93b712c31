//! Room for values that do not fit into a word.
//!
//! One sender fills the slots of a tray, from the first to the last. The address of a slot is the word. Whoever takes the
//! word empties the slot. A tray is freed when all its slots are emptied, or will never be filled. So a value costs no
//! call of the allocator.
use std::alloc::{Layout, alloc, dealloc};
use std::marker::PhantomData;
use std::mem::MaybeUninit;
use std::ptr::NonNull;
use std::sync::atomic::AtomicUsize;
use std::sync::atomic::Ordering::{Acquire, Release};

/// (On a cache line of its own, since those that take write it.)
#[repr(align(64))]
struct Head {
    /// How many slots are not emptied, and may still be.
    left: AtomicUsize,
}

pub(super) struct Slot<T> {
    /// Of the block that this slot is in.
    head: NonNull<Head>,
    value: MaybeUninit<T>,
}

/// The tray that a sender fills.
pub(super) struct Tray<T> {
    head: NonNull<Head>,
    filled: usize,
    values: PhantomData<T>,
}

// SAFETY: a tray is a block of memory, whose slots are not filled from `filled` on. Those before it are not reached from here.
unsafe impl<T: Send> Send for Tray<T> {}

impl<T> Tray<T> {
    /// So many slots, in some 4 KiB.
    const SLOTS: usize = {
        let fit = 4096 / size_of::<Slot<T>>();
        if fit == 0 {
            1
        } else if fit > 64 {
            64
        } else {
            fit
        }
    };

    /// The layout of the block, and where its slots begin.
    fn layout() -> (Layout, usize) {
        let slots = Layout::array::<Slot<T>>(Self::SLOTS);
        let block = slots.and_then(|slots| Layout::new::<Head>().extend(slots));
        block.expect("a block is not larger than a slot and a page")
    }

    /// A tray with no slot filled, if there is memory for it.
    #[cold]
    #[inline(never)]
    pub(super) fn new() -> Option<Tray<T>> {
        let (layout, _) = Self::layout();
        // SAFETY: the layout has bytes.
        let head = NonNull::new(unsafe { alloc(layout) })?.cast::<Head>();
        let left = AtomicUsize::new(Self::SLOTS);
        // SAFETY: the block is new, and begins with a head.
        unsafe { head.write(Head { left }) };
        Some(Tray {
            head,
            filled: 0,
            values: PhantomData,
        })
    }

    pub(super) fn is_full(&self) -> bool {
        self.filled == Self::SLOTS
    }

    /// Fills the next slot, of which there has to be one.
    #[inline]
    pub(super) fn fill(&mut self, value: T) -> NonNull<Slot<T>> {
        assert!(!self.is_full());
        let (head, (_, begin)) = (self.head, Self::layout());
        let value = MaybeUninit::new(value);
        // SAFETY: the block has this slot. It is not filled, so nobody else reaches it.
        let slot = unsafe {
            let slot = head.byte_add(begin).cast::<Slot<T>>().add(self.filled);
            slot.write(Slot { head, value });
            slot
        };
        self.filled += 1;
        slot
    }

    /// Counts slots as emptied, and frees the block if these were the last.
    ///
    /// # Safety
    /// The block is one of `new`. So many slots of it were not counted so far, and nobody reaches them.
    #[inline]
    unsafe fn leave(head: NonNull<Head>, slots: usize) {
        // SAFETY: the slots that were not counted keep the block.
        let left = unsafe { &head.as_ref().left };
        if left.fetch_sub(slots, Release) == slots {
            left.load(Acquire); // (all others have left)
            // SAFETY: nobody reaches the block any more.
            unsafe { dealloc(head.as_ptr().cast(), Self::layout().0) };
        }
    }

    /// The value of a slot, which is emptied.
    ///
    /// # Safety
    /// `fill` of a tray of `T` made the slot, and no other call gets it.
    #[inline]
    pub(super) unsafe fn empty(slot: NonNull<Slot<T>>) -> T {
        // SAFETY: the caller's promise. The slot was filled, and is counted after it was read.
        unsafe {
            let Slot { head, value } = slot.read();
            Self::leave(head, 1);
            value.assume_init()
        }
    }
}

impl<T> Drop for Tray<T> {
    fn drop(&mut self) {
        if !self.is_full() {
            // SAFETY: nobody fills the slots that were not filled.
            unsafe { Self::leave(self.head, Self::SLOTS - self.filled) };
        }
    }
}

// These make no call of the archive. So Miri can run them.
#[cfg(test)]
mod tests {
    use super::Tray;
    use std::rc::Rc;

    #[test]
    fn values_come_back_from_the_slots_of_trays() {
        let letter = Rc::new([7; 3]);
        let mut slots = Vec::new();
        for _ in 0..3 {
            let mut tray = Tray::new().expect("there is memory");
            while !tray.is_full() && slots.len() < 150 {
                slots.push(tray.fill((slots.len(), Rc::clone(&letter))));
            }
        }
        for (number, slot) in slots.into_iter().enumerate() {
            // SAFETY: each slot was filled, and is emptied once.
            let (there, same) = unsafe { Tray::empty(slot) };
            assert_eq!((there, Rc::strong_count(&same)), (number, 151 - number));
        }
    }

    #[test]
    fn a_large_or_aligned_value_has_a_tray() {
        #[repr(align(128))]
        struct Aligned(u8);

        let mut tray = Tray::new().expect("there is memory");
        let slot = tray.fill(([0_u64; 1000], Aligned(3)));
        assert!(tray.is_full());
        // SAFETY: the slot was filled, and is emptied once.
        assert_eq!(unsafe { Tray::empty(slot) }.1.0, 3);
    }
}
