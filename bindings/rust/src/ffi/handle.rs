//! The owner of what a call of the archive made.
use super::calls::hz_free;
use std::ffi::c_void;
use std::mem::offset_of;
use std::ptr;

/// What leads to a hub, a producer, a consumer or a report, or to nothing. It is not `Clone`, and its fields are private,
/// so only the archive's calls write it, and nobody copies it. A move is allowed by the header.
#[repr(C)]
pub(super) struct Handle {
    full: bool,
    at: *mut c_void,
}

// The layout is that which a C compiler gives `hz_handle`.
const _: () = {
    assert!(size_of::<Handle>() == 16);
    assert!(offset_of!(Handle, full) == 0 && offset_of!(Handle, at) == 8);
};

// SAFETY: the archive's own crate compiles only if all that a handle leads to may go from thread to thread
// (`things_cross_threads`). Rust orders the calls of two threads, since each call takes the handle by `&mut`. It is not
// `Sync`, because of its pointer.
unsafe impl Send for Handle {}

impl Handle {
    /// One that leads to nothing.
    pub(super) const fn empty() -> Handle {
        Handle {
            full: false,
            at: ptr::null_mut(),
        }
    }

    /// Whether it leads to something.
    pub(super) fn is_full(&self) -> bool {
        self.full
    }
}

impl Drop for Handle {
    fn drop(&mut self) {
        if self.full {
            // SAFETY: it leads to what a call made, and this is its last use.
            unsafe { hz_free(self) }
        }
    }
}
