//! The three functions by which the archive asks for memory, over `malloc`, `realloc` and `free` of the C library. Those
//! of C programs are in `bindings/c/heap.c`.
use std::ptr::NonNull;

unsafe extern "C" {
    fn malloc(size: usize) -> *mut u8;
    fn realloc(at: *mut u8, size: usize) -> *mut u8;
    fn free(at: *mut u8);
}

/// Whether there is a block, and where. If there is none, `at` is dangling and not null, and nobody uses it.
#[repr(C)]
struct Tried {
    there: bool,
    at: *mut u8,
}

fn tried(at: *mut u8) -> Tried {
    Tried {
        there: !at.is_null(),
        at: if at.is_null() {
            NonNull::dangling().as_ptr()
        } else {
            at
        },
    }
}

/// A block of this many bytes. For none it is one of `align` bytes, so that it has an address of its own.
///
/// `malloc` and `realloc` align to 16. The archive asks for 16 at most, as `bindings/c/heap.c` says too.
#[unsafe(no_mangle)]
extern "C" fn rattle_alloc(size: usize, align: usize) -> Tried {
    debug_assert!(align <= 16);
    // SAFETY: `malloc` takes any size.
    tried(unsafe { malloc(if size == 0 { align } else { size }) })
}

/// The block at `at`, made one of `size` bytes. It may move. If there is no memory, it is as it was.
///
/// # Safety
/// `at` is a block of these functions, and it is not used again if there is a new one.
#[unsafe(no_mangle)]
unsafe extern "C" fn rattle_realloc(at: *mut u8, _kept: usize, size: usize, align: usize) -> Tried {
    debug_assert!(align <= 16);
    // SAFETY: the caller's promise. The size is not 0, at which `realloc` would free the block.
    tried(unsafe { realloc(at, if size == 0 { align } else { size }) })
}

/// Frees a block.
///
/// # Safety
/// `at` is a block of these functions, and it is not used again.
#[unsafe(no_mangle)]
unsafe extern "C" fn rattle_dealloc(at: *mut u8) {
    // SAFETY: the caller's promise.
    unsafe { free(at) }
}

// These make no call of the archive. So Miri can run them.
#[cfg(test)]
mod tests {
    use super::{rattle_alloc, rattle_dealloc, rattle_realloc};

    #[test]
    fn a_block_keeps_its_bytes_as_it_grows() {
        let block = rattle_alloc(8, 8);
        assert!(block.there);
        // SAFETY: the block has 8 bytes, then 4096, and it is freed once.
        unsafe {
            block.at.write_bytes(7, 8);
            let grown = rattle_realloc(block.at, 8, 4096, 8);
            assert!(grown.there);
            assert_eq!(grown.at.cast::<[u8; 8]>().read(), [7; 8]);
            rattle_dealloc(grown.at);
        }
    }

    #[test]
    fn blocks_of_no_bytes_have_addresses_of_their_own() {
        let (one, two) = (rattle_alloc(0, 8), rattle_alloc(0, 8));
        assert!(one.there && two.there);
        assert_ne!(one.at, two.at);
        // SAFETY: each is a block of these functions, and is freed once.
        unsafe {
            rattle_dealloc(one.at);
            rattle_dealloc(two.at);
        }
    }
}
