//! How a value goes through the archive, whose items are words of 64 bits.
use std::alloc::{Layout, alloc};
use std::mem::{MaybeUninit, needs_drop};

/// An item of the archive, which is a `u64` in its calls. `MaybeUninit<u64>` has the ABI of `u64`, so the archive gets the
/// same 64 bits. But no Rust code reads a word as a number unless it is one: bytes of it may be uninitialised, as the padding
/// of a value is, and bytes of a pointer keep its provenance.
///
/// The archive keeps a word and hands it out again, and does nothing else with it, whatever it is. So what it hands out
/// is what it got, byte by byte: that is a copy of the `MaybeUninit`.
#[derive(Clone, Copy)]
#[repr(transparent)]
pub(crate) struct Word(MaybeUninit<u64>);

/// Whether a value of this type fits into a word.
pub(super) const fn fits<T>() -> bool {
    size_of::<T>() <= size_of::<Word>() && align_of::<T>() <= align_of::<Word>()
}

/// Whether a word of [`Word::pack`] stands for something to drop.
pub(super) const fn owns<T>() -> bool {
    needs_drop::<T>() || !fits::<T>()
}

impl Word {
    /// Where the archive writes an item.
    pub(super) const EMPTY: Word = Word(MaybeUninit::uninit());

    /// The word whose first bytes are this value, which has to fit. The value belongs to whoever has the word.
    #[inline]
    pub(super) fn of<T>(value: T) -> Word {
        assert!(fits::<T>());
        let mut word = Word::EMPTY;
        // SAFETY: the value fits into the word, by its size and its alignment.
        unsafe { word.0.as_mut_ptr().cast::<T>().write(value) };
        word
    }

    /// The value whose word this is.
    ///
    /// # Safety
    /// `of` made the word of a `T`, or the archive wrote it as a number and `T` is `u64`. If `T` is not `Copy`, no other call
    /// gets the value of what that call of `of` made.
    #[inline]
    pub(super) unsafe fn value<T>(self) -> T {
        assert!(fits::<T>());
        // SAFETY: the caller's promise: the first bytes are a `T`. The word has room for it, and its alignment.
        unsafe { self.0.as_ptr().cast::<T>().read() }
    }

    /// The word of any value: the value itself, or a box of it if it does not fit.
    #[inline]
    pub(super) fn pack<T>(value: T) -> Word {
        if fits::<T>() {
            Word::of(value)
        } else {
            Word::of(Box::new(value))
        }
    }

    /// The same, or the value if there is no memory for the box.
    #[inline]
    pub(super) fn try_pack<T>(value: T) -> Result<Word, T> {
        if fits::<T>() || size_of::<T>() == 0 {
            return Ok(Word::pack(value));
        }
        // SAFETY: the layout has bytes.
        let at = unsafe { alloc(Layout::new::<T>()) }.cast::<T>();
        if at.is_null() {
            return Err(value);
        }
        // SAFETY: the block is new, of the layout and the allocator of a box of a `T`.
        Ok(unsafe {
            at.write(value);
            Word::of(Box::from_raw(at))
        })
    }

    /// The value of a word.
    ///
    /// # Safety
    /// A call of `pack` or `try_pack` for a `T` made the word, and no other call of `unpack` gets what that call
    /// made.
    #[inline]
    pub(super) unsafe fn unpack<T>(self) -> T {
        // SAFETY: the caller's promise. It is the same case as in `pack`.
        unsafe {
            if fits::<T>() {
                self.value()
            } else {
                *self.value::<Box<T>>()
            }
        }
    }
}

// These make no call of the archive. So Miri can run them.
#[cfg(test)]
mod tests {
    use super::{Word, fits, owns};
    use std::fmt::Debug;
    use std::rc::Rc;

    /// Whether the value comes back.
    fn comes_back<T: Copy + Debug + PartialEq>(value: T) {
        // SAFETY: `pack` or `try_pack` made the word of a `T`, which is used once.
        assert_eq!(unsafe { Word::pack(value).unpack::<T>() }, value);
        let word = Word::try_pack(value).expect("there is memory");
        // SAFETY: the same.
        assert_eq!(unsafe { word.unpack::<T>() }, value);
    }

    #[test]
    fn values_come_back() {
        #[derive(Clone, Copy, Debug, PartialEq)]
        #[repr(align(64))]
        struct Aligned;

        let number = 5;
        [0, 7, u64::MAX].into_iter().for_each(comes_back);
        comes_back(());
        comes_back(7_u8);
        comes_back((1_u8, 2_u16)); // (it has padding)
        comes_back([None, Some(3_u16)]);
        comes_back::<&u64>(&number);
        comes_back([1_u8; 9]);
        comes_back(7_u128);
        comes_back("a letter");
        comes_back(Aligned);
        assert!(fits::<(u8, u16)>() && fits::<&u8>() && fits::<Option<Box<u8>>>());
        assert!(!fits::<[u8; 9]>() && !fits::<&str>() && !fits::<Aligned>());
    }

    #[test]
    fn a_value_that_owns_comes_back_and_is_dropped_once() {
        fn once<T>(value: T, count: impl Fn(&T) -> usize) {
            assert!(owns::<T>());
            let before = count(&value);
            let word = Word::pack(value);
            // SAFETY: `pack` made the word of a `T`, which is used once.
            let back = unsafe { word.unpack::<T>() };
            assert_eq!(count(&back), before);
        }

        let letter = Rc::new(String::from("a letter"));
        once(Rc::clone(&letter), Rc::strong_count);
        once(Box::new(Rc::clone(&letter)), |it| Rc::strong_count(it));
        once((Rc::clone(&letter), 7), |it| Rc::strong_count(&it.0));
        assert_eq!(Rc::strong_count(&letter), 1);
        assert!(!owns::<u64>() && !owns::<&String>());
    }
}
