//! The calls of the library, as firnuubal.h has them.

use crate::Encoding;
use std::ffi::c_void;
use std::mem::{self, MaybeUninit};
use std::{ptr, slice};

/// A handle, of a tokenizer, a policy or a cleaner. One of zeros is closed.
#[repr(C)]
#[derive(Debug)]
pub(crate) struct Handle {
    at: *mut c_void,
    is_open: bool,
}

impl Handle {
    pub(crate) const CLOSED: Handle = Handle { at: ptr::null_mut(), is_open: false };

    pub(crate) fn is_open(&self) -> bool {
        self.is_open
    }

    /// Moves it out, and leaves a closed one.
    pub(crate) fn take(&mut self) -> Handle {
        mem::replace(self, Handle::CLOSED)
    }
}

impl Drop for Handle {
    fn drop(&mut self) {
        unsafe { html5_free(self) }
    }
}

#[repr(C)]
#[derive(Default)]
pub(crate) struct RawOptions {
    pub(crate) state: u32,
    pub(crate) replies: u32,
    pub(crate) exact_errors: bool,
    pub(crate) keep_bom: bool,
    pub(crate) foreign: bool,
    pub(crate) places: bool,
}

extern "C" {
    pub(crate) fn html5_new(handle: *mut Handle, last: *const u8, len: usize, options: *const RawOptions) -> u32;
    pub(crate) fn html5_restart(handle: *mut Handle, last: *const u8, len: usize, options: *const RawOptions) -> u32;
    pub(crate) fn html5_feed(handle: *mut Handle, bytes: *const u8, len: usize) -> u32;
    pub(crate) fn html5_insert(handle: *mut Handle, text: *const u8, len: usize) -> u32;
    pub(crate) fn html5_reply(handle: *mut Handle, state: u32) -> u32;
    pub(crate) fn html5_set_foreign(handle: *mut Handle, foreign: bool) -> u32;
    pub(crate) fn html5_set_limit(handle: *mut Handle, limit: u64) -> u32;
    pub(crate) fn html5_set_encoding(handle: *mut Handle, label: *const u8, len: usize) -> u32;
    pub(crate) fn html5_encoding(handle: *mut Handle, out: *mut u8, len: usize) -> usize;
    pub(crate) fn html5_end(handle: *mut Handle) -> u32;
    pub(crate) fn html5_take(handle: *mut Handle, out: *mut u8, len: usize) -> usize;
    pub(crate) fn html5_error_at(handle: *mut Handle) -> u64;
    pub(crate) fn html5_error_code(message: *const u8, message_len: usize, out: *mut u8, len: usize) -> usize;
    pub(crate) fn html5_is_over(handle: *mut Handle) -> bool;
    pub(crate) fn html5_free(handle: *mut Handle);
    pub(crate) fn html5_policy_new(handle: *mut Handle) -> u32;
    pub(crate) fn html5_policy_add(
        handle: *mut Handle,
        rule: u32,
        name: *const u8,
        name_len: usize,
        attribute: *const u8,
        attribute_len: usize,
    ) -> u32;
    pub(crate) fn html5_cleaner_begin(handle: *mut Handle) -> u32;
    pub(crate) fn html5_cleaner_new(handle: *mut Handle, policy: *const u8, len: usize, place: *mut u64) -> u32;
    pub(crate) fn html5_cleaner_restart(handle: *mut Handle) -> u32;
    pub(crate) fn html5_cleaner_feed(handle: *mut Handle, bytes: *const u8, len: usize) -> u32;
    pub(crate) fn html5_cleaner_end(handle: *mut Handle) -> u32;
    pub(crate) fn html5_cleaner_take(handle: *mut Handle, out: *mut u8, len: usize) -> usize;
    pub(crate) fn html5_cleaner_error_at(handle: *mut Handle) -> u64;
}

/// Reads the page of a handle in this encoding, and answers the status. Before one is set a page is strict UTF-8.
pub(crate) fn set_encoding(handle: &mut Handle, encoding: Encoding<'_>) -> u32 {
    match encoding {
        Encoding::StrictUtf8 => 0,
        Encoding::Auto => unsafe { html5_set_encoding(handle, [].as_ptr(), 0) },
        Encoding::Label("") => 9,
        Encoding::Label(label) => unsafe { html5_set_encoding(handle, label.as_ptr(), label.len()) },
    }
}

/// The name of the encoding of a handle's page, once it is known.
pub(crate) fn encoding(handle: &mut Handle) -> Option<String> {
    let mut name = vec![0; 16];
    let len = unsafe { html5_encoding(handle, name.as_mut_ptr(), name.len()) };
    name.truncate(len);
    String::from_utf8(name).ok().filter(|name| !name.is_empty())
}

/// The code that the standard has for a parse error with this message, if it has one.
pub(crate) fn error_code(message: &str) -> Option<String> {
    // There is room for each code in so many bytes.
    let mut code = vec![0; 64];
    let len = unsafe { html5_error_code(message.as_ptr(), message.len(), code.as_mut_ptr(), code.len()) };
    code.truncate(len);
    String::from_utf8(code).ok().filter(|code| !code.is_empty())
}

/// Appends all that waits in a handle. Where there was room for more, that was all.
pub(crate) fn take_all(
    handle: &mut Handle,
    take: unsafe extern "C" fn(*mut Handle, *mut u8, usize) -> usize,
    taken: &mut Vec<u8>,
) {
    const ROOM: usize = 1 << 14;
    loop {
        let len = taken.len();
        taken.reserve(ROOM);
        let room = taken.spare_capacity_mut();
        let count = unsafe { take(handle, room.as_mut_ptr().cast(), room.len()) };
        let is_all = count < room.len();
        // SAFETY: the library wrote so many bytes.
        unsafe { taken.set_len(len + count) };
        if is_all {
            return;
        }
    }
}

/// All that waits in a handle of a cleaner. What is short holds no more than its bytes.
pub(crate) fn take_kept(handle: &mut Handle) -> Vec<u8> {
    let mut first = [MaybeUninit::<u8>::uninit(); 1 << 12];
    let count = unsafe { html5_cleaner_take(handle, first.as_mut_ptr().cast(), first.len()) };
    // SAFETY: the library wrote so many bytes.
    let mut taken = unsafe { slice::from_raw_parts(first.as_ptr().cast::<u8>(), count) }.to_vec();
    if count == first.len() {
        take_all(handle, html5_cleaner_take, &mut taken);
    }
    taken
}
