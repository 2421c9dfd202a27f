//! Handles whose pages are over, a few for each thread. Each keeps its table of names, and of a cleaner the policy, which the
//! next page takes over.

use crate::raw::{self, Handle, RawOptions};
use crate::rules::Rules;
use crate::Encoding;
use std::cell::RefCell;
use std::sync::Arc;

/// How many of each are kept.
const MOST: usize = 4;

/// How a handle's pages are read, which it keeps. One whose encoding has a label is not kept.
#[derive(Clone, Copy, Debug, PartialEq, Eq)]
pub(crate) enum Said {
    /// They are strict UTF-8.
    Nothing,
    /// They are strict UTF-8, and their tokens have places.
    Places,
    /// They tell it.
    Auto,
}

impl Said {
    /// What these options say, where such a handle is kept.
    pub(crate) fn of(encoding: Option<Encoding<'_>>, places: bool) -> Option<Said> {
        match encoding {
            None | Some(Encoding::StrictUtf8) if places => Some(Said::Places),
            None | Some(Encoding::StrictUtf8) => Some(Said::Nothing),
            Some(Encoding::Auto) => Some(Said::Auto),
            Some(Encoding::Label(_)) => None,
        }
    }
}

// Handles, each with what the next page must be like.
type Kept<K> = RefCell<Vec<(K, Handle)>>;

thread_local! {
    static TOKENIZERS: Kept<Said> = const { RefCell::new(Vec::new()) };
    static CLEANERS: Kept<(Arc<Rules>, Said)> = const { RefCell::new(Vec::new()) };
}

/// Opens a handle at the start of a page, and answers the status.
pub(crate) fn open(handle: &mut Handle, last_start_tag: &str, options: &RawOptions, said: Option<Said>) -> u32 {
    if let Some(said) = said {
        let kept = TOKENIZERS.try_with(|kept| taken(&mut kept.borrow_mut(), |own| *own == said));
        *handle = kept.unwrap_or(Handle::CLOSED);
    }
    let begin = if handle.is_open() { raw::html5_restart } else { raw::html5_new };
    unsafe { begin(handle, last_start_tag.as_ptr(), last_start_tag.len(), options) }
}

/// Keeps a handle of a tokenizer that has no limit. What it holds of its page is given back.
pub(crate) fn keep(mut handle: Handle, said: Said) {
    let options = RawOptions { places: said == Said::Places, ..RawOptions::default() };
    if unsafe { raw::html5_restart(&mut handle, [].as_ptr(), 0, &options) } != 0 {
        return;
    }
    // Where the thread ends nothing is kept.
    let _ = TOKENIZERS.try_with(|kept| push(&mut kept.borrow_mut(), (said, handle)));
}

/// A handle of a cleaner by these rules, which has no limit: at the start of a page, or closed.
pub(crate) fn cleaner(rules: &Arc<Rules>, said: Said) -> Handle {
    let is_it = |own: &(Arc<Rules>, Said)| own.1 == said && own.0 == *rules;
    CLEANERS.try_with(|kept| taken(&mut kept.borrow_mut(), is_it)).unwrap_or(Handle::CLOSED)
}

/// Keeps such a handle. What it holds of its page is given back.
pub(crate) fn keep_cleaner(rules: &Arc<Rules>, said: Said, mut handle: Handle) {
    if unsafe { raw::html5_cleaner_restart(&mut handle) } == 0 {
        let _ = CLEANERS.try_with(|kept| push(&mut kept.borrow_mut(), ((Arc::clone(rules), said), handle)));
    }
}

// One that is kept, or a closed one.
fn taken<K>(kept: &mut Vec<(K, Handle)>, is_it: impl Fn(&K) -> bool) -> Handle {
    let at = kept.iter().position(|(key, _)| is_it(key));
    at.map_or(Handle::CLOSED, |at| kept.remove(at).1)
}

// The one that was kept longest goes, where there are enough.
fn push<T>(kept: &mut Vec<T>, one: T) {
    if kept.len() == MOST {
        drop(kept.remove(0));
    }
    kept.push(one);
}
