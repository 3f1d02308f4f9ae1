//! What the header of the library for C declares.

use crate::Identity;
use std::{ffi::c_void, marker::PhantomData, ptr};

// The statuses, by their names there.
pub(crate) const RESULT: u32 = 0;
pub(crate) const CONFLICT: u32 = 1;
pub(crate) const NO_PATCHES: u32 = 2;
pub(crate) const REFUSED: u32 = 3;
pub(crate) const MISSING: u32 = 4;
pub(crate) const DOCUMENT: u32 = 5;
pub(crate) const PATCH: u32 = 6;
pub(crate) const FORM: u32 = 7;
pub(crate) const POINTER: u32 = 8;
pub(crate) const NO_MEMORY: u32 = 9;
pub(crate) const PENDING: u32 = 10;
pub(crate) const TOO_LARGE: u32 = 11;

/// In the flags of a reply: there is more than what is reported.
pub(crate) const MORE: u32 = 1;

/// A text that a call borrows, as the header's `mergejoin_text`.
#[repr(C)]
pub(crate) struct Text<'a> {
    bytes: *const u8,
    length: usize,
    of: PhantomData<&'a [u8]>,
}

/// What a call returns in addition to the text in the buffer, as the header's `mergejoin_reply`.
#[repr(C)]
pub(crate) struct Reply {
    pub(crate) length: usize,
    pub(crate) first: usize,
    pub(crate) second: usize,
    pub(crate) total: usize,
    pub(crate) places: usize,
    pub(crate) status: u32,
    pub(crate) flags: u32,
}

/// A handle, as the header's `mergejoin_replica`, `mergejoin_patches` and `mergejoin_patch_log`.
#[repr(C)]
pub(crate) struct Handle {
    held: *mut c_void,
}

impl<'a> Text<'a> {
    pub(crate) fn of(text: &'a [u8]) -> Self {
        Text {
            bytes: text.as_ptr(),
            length: text.len(),
            of: PhantomData,
        }
    }

    pub(crate) fn len(&self) -> usize {
        self.length
    }
}

impl Handle {
    /// The header's `{0}`.
    pub(crate) const fn new() -> Self {
        Handle {
            held: ptr::null_mut(),
        }
    }
}

/// Declares calls, and types of calls, by what they are given before the buffer, its capacity and the limit.
macro_rules! calls {
    ($($name:ident($($given:ty),+);)+) => {
        extern "C" {
            $(pub(crate) fn $name($(_: $given,)+ out: *mut u8, capacity: usize, limit: usize) -> Reply;)+
        }
    };
    ($($(#[$about:meta])* type $name:ident($($given:ty),+);)+) => {
        $($(#[$about])* pub(crate) type $name = unsafe extern "C" fn($($given,)+ *mut u8, usize, usize) -> Reply;)+
    };
}

calls! {
    /// On a document and merge patches.
    type OnPatches(*const u8, usize, *const Text<'_>, usize);
    /// On a document, and a patch or a pointer.
    type OnTexts(*const u8, usize, *const u8, usize);
    /// Of a handle with a text.
    type OfText(&mut Handle, *const u8, usize);
    /// Of a handle, whose reading it is.
    type OfHandle(&mut Handle);
}

calls! {
    mergejoin_join(*const Text<'_>, usize);
    mergejoin_replay(*const u8, usize, *const Text<'_>, usize);
    mergejoin_merge(*const u8, usize, *const Text<'_>, usize);
    mergejoin_rewrite(*const u8, usize, *const u8, usize);
    mergejoin_patch(*const u8, usize, *const u8, usize);
    mergejoin_get(*const u8, usize, *const u8, usize);
    mergejoin_replica_start(&mut Handle, *const u8, usize);
    mergejoin_replica_receive(&mut Handle, *const u8, usize);
    mergejoin_replica_document(&mut Handle);
    mergejoin_replica_joined(&mut Handle);
    mergejoin_replica_get(&mut Handle, *const u8, usize);
    mergejoin_patches_add(&mut Handle, *const u8, usize);
    mergejoin_patches_combine(&mut Handle, &mut Handle);
    mergejoin_patches_text(&mut Handle);
    mergejoin_patches_kept(&mut Handle);
    mergejoin_patches_from_kept(&mut Handle, *const u8, usize);
    mergejoin_patch_log_start(&mut Handle, u64, *const u8, usize);
    mergejoin_patch_log_receive(&mut Handle, u64, u64, u64, *const u8, usize);
    mergejoin_patch_log_document(&mut Handle);
    mergejoin_patch_log_conflicts(&mut Handle);
    mergejoin_patch_log_conflicts_of(&mut Handle, u64, u64);
    mergejoin_patch_log_count(&mut Handle);
    mergejoin_patch_log_decide(&mut Handle, *const Identity, usize);
}

extern "C" {
    pub(crate) fn mergejoin_replica_free(replica: &mut Handle);
    pub(crate) fn mergejoin_patches_free(patches: &mut Handle);
    pub(crate) fn mergejoin_patch_log_free(log: &mut Handle);
}

/// Says of a type with a handle that it is dropped by freeing this, that nothing of it is shown, and that it may move to another thread.
macro_rules! holds {
    ($name:ident, $free:ident) => {
        impl Drop for $name {
            fn drop(&mut self) {
                // SAFETY: what is held is as a call has left it, or as the header's {0}, and is not used any more.
                unsafe { $crate::raw::$free(&mut self.held) }
            }
        }

        impl std::fmt::Debug for $name {
            fn fmt(&self, to: &mut std::fmt::Formatter<'_>) -> std::fmt::Result {
                to.debug_struct(stringify!($name)).finish_non_exhaustive()
            }
        }

        // SAFETY: what is held may move between threads, as the header says and the library proves; and `&mut self` leaves one
        // call at a time.
        unsafe impl Send for $name {}
    };
}
pub(crate) use holds;
