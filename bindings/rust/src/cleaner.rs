//! Cleaning page by page.

use crate::raw::{self, Handle};
use crate::{Encoding, Error, Policy};

/// Cleans pages by a policy, one after the other, each as its bytes arrive. Without an encoding they are UTF-8, and other bytes
/// are refused.
///
/// It may go to another thread. Two threads can't share it:
///
/// ```compile_fail
/// fn is_shared<T: Sync>() {}
/// is_shared::<firnuubal::Cleaner>();
/// ```
#[derive(Debug)]
pub struct Cleaner {
    handle: Handle,
    // An encoding was set, which the library keeps for each page.
    has_encoding: bool,
}

// SAFETY: the handle has no tie to a thread, and each call takes it by `&mut`. It is not `Sync`: the library has no locks.
unsafe impl Send for Cleaner {}

impl Cleaner {
    /// A cleaner at the start of a page.
    pub fn new(policy: &Policy) -> Result<Cleaner, Error> {
        policy.rules.open().map(Cleaner::of_handle)
    }

    // The cleaner of a handle that is kept.
    pub(crate) fn of_handle(handle: Handle) -> Cleaner {
        Cleaner { handle, has_encoding: false }
    }

    pub(crate) fn into_handle(self) -> Handle {
        self.handle
    }

    /// Sets how many bytes may be held: those fed since all was read and no item was open, the text that no tag has
    /// ended yet, and what was not taken. A piece that goes past it is [`Error::Limit`].
    pub fn set_limit(&mut self, limit: u64) -> Result<(), Error> {
        let status = unsafe { raw::html5_set_limit(&mut self.handle, limit) };
        self.done_or_error(status)
    }

    /// Sets in which encoding this page is, and those after it. After bytes of the page were fed it is [`Error::Begun`]; so is
    /// [`Encoding::StrictUtf8`] after another encoding was set.
    pub fn set_encoding(&mut self, encoding: Encoding<'_>) -> Result<(), Error> {
        if encoding == Encoding::StrictUtf8 {
            return if self.has_encoding { Err(Error::Begun) } else { Ok(()) };
        }
        let status = raw::set_encoding(&mut self.handle, encoding);
        self.done_or_error(status)?;
        self.has_encoding = true;
        Ok(())
    }

    /// The name of the encoding in which the page is read, once it is known. There is none if none was set.
    pub fn encoding(&mut self) -> Option<String> {
        raw::encoding(&mut self.handle)
    }

    /// Reads the next bytes, in pieces of any size. Where bytes are not UTF-8, all before them is read.
    pub fn feed(&mut self, bytes: &[u8]) -> Result<(), Error> {
        let status = unsafe { raw::html5_cleaner_feed(&mut self.handle, bytes.as_ptr(), bytes.len()) };
        self.done_or_error(status)
    }

    /// Ends the page.
    pub fn end(&mut self) -> Result<(), Error> {
        let status = unsafe { raw::html5_cleaner_end(&mut self.handle) };
        self.done_or_error(status)
    }

    /// The kept part of the page that was not taken yet.
    pub fn take(&mut self) -> String {
        String::from_utf8(raw::take_kept(&mut self.handle)).expect("pieces of a cleaned page are UTF-8")
    }

    /// Begins another page, by the same policy. What was not taken is gone.
    pub fn restart(&mut self) -> Result<(), Error> {
        let status = unsafe { raw::html5_cleaner_restart(&mut self.handle) };
        self.done_or_error(status)
    }

    fn done_or_error(&mut self, status: u32) -> Result<(), Error> {
        match status {
            0 => Ok(()),
            status => Err(Error::of_status(status, || unsafe { raw::html5_cleaner_error_at(&mut self.handle) })),
        }
    }
}
