//! HTML pages cleaned and read by a proved tokenizer, called through its C interface.
//!
//! What the library says is proved; this crate, which calls it and reads its records, is not.
//!
//! ```
//! assert_eq!(firnuubal::clean("<p onclick=x>1"), "<p>1</p>");
//! ```
//!
//! ```
//! use firnuubal::{Options, Token, Tokenizer};
//!
//! let mut tokenizer = Tokenizer::new(&Options::default())?;
//! tokenizer.feed(b"<p class=x>1 &lt; 2")?;
//! tokenizer.end()?;
//! for token in tokenizer.tokens() {
//!     if let Token::StartTag(tag) = token {
//!         println!("{} on line {}", tag.name, tag.line);
//!     }
//! }
//! # Ok::<(), firnuubal::Error>(())
//! ```
#![warn(missing_docs)]

mod builder;
mod cleaner;
mod error;
mod owned;
mod pages;
mod policy;
mod raw;
mod record;
mod rules;
mod sink;
mod spares;

pub use builder::PolicyBuilder;
pub use cleaner::Cleaner;
pub use error::{Error, PolicyFault};
pub use owned::{OwnedTag, OwnedToken};
pub use pages::{links, read_links, read_text, read_tokens, text, Link};
pub use policy::{clean, Policy};
pub use record::{Attributes, Doctype, PlacedTokens, Tag, Token, Tokens};
pub use sink::{RawKind, SinkTokenizer, TokenSink, TokenSinkResult, TokenizerResult};

use raw::{Handle, RawOptions};

/// The state in which a reading starts, or goes on after a reply.
#[derive(Clone, Copy, Debug, Default, PartialEq, Eq)]
#[repr(u32)]
pub enum State {
    /// Text with tags.
    #[default]
    Data = 0,
    /// Text alone, to the end.
    Plaintext = 1,
    /// Text with references, as in `title`.
    Rcdata = 2,
    /// Text alone, as in `style`.
    Rawtext = 3,
    /// As in `script`.
    ScriptData = 4,
    /// A CDATA section.
    CdataSection = 5,
}

/// What the tokenizer does after tags.
#[derive(Clone, Copy, Debug, Default, PartialEq, Eq)]
#[repr(u32)]
pub enum Replies {
    /// Scripts, styles, titles and their like are no markup, as the standard has it.
    #[default]
    Standard = 0,
    /// All is markup.
    None = 1,
    /// As the standard's, and it pauses after `</script>` and `<meta charset=..>`.
    Pausing = 2,
    /// It pauses after each tag, and all is markup unless [`Tokenizer::reply`] says otherwise.
    Caller = 3,
}

/// In which encoding the bytes of a page are. Bytes that are invalid in it are read as U+FFFD, but where it is
/// [`Encoding::StrictUtf8`].
///
/// Functions of whole pages of bytes read them by [`Encoding::Auto`] by default. A [`Tokenizer`] and a [`Cleaner`] are
/// strict by default. A `&str` is UTF-8, whatever it says of itself.
///
/// ```
/// use firnuubal::{read_text, Encoding};
///
/// let page = b"<meta charset=shift_jis>\x93\xfa\x96{";
/// assert_eq!(read_text(&page[..], Encoding::Auto)?, "日本");
/// assert!(read_text(&page[..], Encoding::StrictUtf8).is_err());
/// # Ok::<(), std::io::Error>(())
/// ```
#[derive(Clone, Copy, Debug, Default, PartialEq, Eq)]
pub enum Encoding<'e> {
    /// The page tells, as to a browser: by a byte order mark; else by a `<meta charset=..>` or an XML declaration in its first
    /// bytes; else it is UTF-8 where these are UTF-8, and windows-1252.
    #[default]
    Auto,
    /// That of a label of the Encoding Standard, as `shift_jis`, said by a header of the transport. A byte order mark overrules
    /// it. Another label is [`Error::UnknownEncoding`].
    Label(&'e str),
    /// UTF-8, whatever the page says. Other bytes are refused: [`Error::NotUtf8`].
    StrictUtf8,
}

/// How a page is read.
#[derive(Clone, Copy, Debug, Default, PartialEq, Eq)]
pub struct Options<'o> {
    /// Where the reading starts.
    pub state: State,
    /// What is done after tags.
    pub replies: Replies,
    /// The name of the tag whose end tag ends raw text, where the reading starts in some.
    pub last_start_tag: &'o str,
    /// Every bad character is reported as a parse error. It is slower.
    pub exact_errors: bool,
    /// A byte order mark at the start is kept.
    pub keep_bom: bool,
    /// All content is foreign: `<![CDATA[` opens a section.
    pub foreign: bool,
    /// How many bytes may be held: those fed since all was read and no item was open, and the records of tokens that
    /// were not read. A piece that goes past it is [`Error::Limit`].
    pub limit: Option<u64>,
    /// In which encoding the bytes are. Without one it is [`Encoding::StrictUtf8`] for a [`Tokenizer`], and [`Encoding::Auto`]
    /// for [`read_tokens`].
    pub encoding: Option<Encoding<'o>>,
    /// Each token comes with its place ([`Tokenizer::placed_tokens`]). Only with the standard's replies, in content that is not
    /// foreign, and of strict UTF-8. Nothing pauses then, and what steers the reading is refused: [`Error::Over`]. A text
    /// comes with the token after it, and an error before the text in which it stands. It is slower, and holds the text since
    /// the last token.
    pub places: bool,
}

/// What a feed came to.
#[derive(Clone, Copy, Debug, PartialEq, Eq)]
pub enum Fed {
    /// All of it was read.
    Done,
    /// It paused after the end of a script; the rest waits.
    Script,
    /// It paused after a `meta` tag that names an encoding; the rest waits.
    Encoding,
    /// It paused after a tag to which the caller replies; the rest waits.
    Tag,
}

/// The code that the standard has for a parse error with this message, as `eof-in-tag`, if it has one. With exact errors that
/// of a character or of the end is not known.
pub fn error_code(message: &str) -> Option<String> {
    raw::error_code(message)
}

/// A tokenizer. Its tokens wait in it until they are read.
///
/// One that is dropped leaves its table of names to the thread's next one, unless it has a limit or a label of an encoding.
/// Building the table takes most of a millisecond. Four are kept.
///
/// It may go to another thread. Two threads can't share it:
///
/// ```compile_fail
/// fn is_shared<T: Sync>() {}
/// is_shared::<firnuubal::Tokenizer>();
/// ```
#[derive(Debug)]
pub struct Tokenizer {
    handle: Handle,
    taken: Vec<u8>,
    read: record::Read,
    places: bool,
    // How its page is read, where its handle may serve another page.
    spare: Option<spares::Said>,
}

// SAFETY: the handle has no tie to a thread, and each call takes it by `&mut`. It is not `Sync`: the library has no locks.
unsafe impl Send for Tokenizer {}

impl Tokenizer {
    /// A tokenizer at the start of a page.
    pub fn new(options: &Options<'_>) -> Result<Tokenizer, Error> {
        let said = spares::Said::of(options.encoding, options.places);
        let is_strict = matches!(options.encoding, None | Some(Encoding::StrictUtf8));
        let is_plain = options.replies == Replies::Standard && !options.foreign && is_strict;
        if options.places && !is_plain {
            return Err(Error::NoPlaces);
        }
        let raw = RawOptions {
            state: options.state as u32,
            replies: options.replies as u32,
            exact_errors: options.exact_errors,
            keep_bom: options.keep_bom,
            foreign: options.foreign,
            places: options.places,
        };
        let mut tokenizer = Tokenizer {
            handle: Handle::CLOSED,
            taken: Vec::new(),
            read: record::Read::default(),
            places: options.places,
            spare: said.filter(|_| options.limit.is_none()),
        };
        let status = spares::open(&mut tokenizer.handle, options.last_start_tag, &raw, said);
        tokenizer.fed_or_error(status)?;
        if let Some(limit) = options.limit {
            let status = unsafe { raw::html5_set_limit(&mut tokenizer.handle, limit) };
            tokenizer.fed_or_error(status)?;
        }
        if let Some(encoding) = options.encoding {
            let status = raw::set_encoding(&mut tokenizer.handle, encoding);
            tokenizer.fed_or_error(status)?;
        }
        Ok(tokenizer)
    }

    /// The name of the encoding in which the page is read, once it is known. A page of strict UTF-8 has none.
    pub fn encoding(&mut self) -> Option<String> {
        raw::encoding(&mut self.handle)
    }

    /// Reads the next bytes, in pieces of any size. After a pause it goes on, with the waiting text and these bytes.
    ///
    /// Where bytes are not UTF-8, all before them is read, and then it is refused. A pause before them comes first: then no
    /// feed takes anything until that was said.
    pub fn feed(&mut self, bytes: &[u8]) -> Result<Fed, Error> {
        let status = unsafe { raw::html5_feed(&mut self.handle, bytes.as_ptr(), bytes.len()) };
        self.fed_or_error(status)
    }

    /// Reads the next bytes, past all pauses.
    pub fn feed_all(&mut self, bytes: &[u8]) -> Result<(), Error> {
        let mut fed = self.feed(bytes)?;
        while fed != Fed::Done {
            fed = self.feed(&[])?;
        }
        Ok(())
    }

    /// Puts a text in front of the waiting text, as `document.write` does.
    pub fn insert(&mut self, text: &str) -> Result<(), Error> {
        let status = unsafe { raw::html5_insert(&mut self.handle, text.as_ptr(), text.len()) };
        self.fed_or_error(status).map(|_| ())
    }

    /// Reads the rest in a state, as a tree builder asks after a start tag. Raw text is read up to the end tag of the
    /// last start tag. Within a tag or another item, which is never so after a pause, it is refused.
    pub fn reply(&mut self, state: State) -> Result<(), Error> {
        let status = unsafe { raw::html5_reply(&mut self.handle, state as u32) };
        self.fed_or_error(status).map(|_| ())
    }

    /// Says whether the current node is outside the HTML namespace, so that `<![CDATA[` opens a section.
    pub fn set_foreign(&mut self, foreign: bool) -> Result<(), Error> {
        let status = unsafe { raw::html5_set_foreign(&mut self.handle, foreign) };
        self.fed_or_error(status).map(|_| ())
    }

    /// Tells the end of the page. Where it is not strict UTF-8, its held bytes are read first, and may pause: then the
    /// page has not ended, and this is called again.
    pub fn end(&mut self) -> Result<Fed, Error> {
        let status = unsafe { raw::html5_end(&mut self.handle) };
        self.fed_or_error(status)
    }

    /// Whether nothing more is read: the page ended, or a call was refused for good. After `Error::NoMemory` it says
    /// whether the reading can go on.
    pub fn is_over(&mut self) -> bool {
        unsafe { raw::html5_is_over(&mut self.handle) }
    }

    /// The tokens that wait to be read. A text is one token however it was fed, so the last one comes when its
    /// end is known.
    pub fn tokens(&mut self) -> Tokens<'_> {
        self.take_all();
        Tokens::new(&self.taken, &mut self.read)
    }

    /// The same tokens, each with its place: the bytes of the fed text that are its source. So
    /// `&page[place]` is the whole source of a tag. A text has the place of its run, with its references; an error that
    /// of the character at which it is reported, and the end an empty one.
    ///
    /// ```
    /// use firnuubal::{Options, Token, Tokenizer};
    ///
    /// let page = "<p>1 &lt; 2<A HREF = x >";
    /// let mut tokenizer = Tokenizer::new(&Options { places: true, ..Options::default() })?;
    /// tokenizer.feed(page.as_bytes())?;
    /// tokenizer.end()?;
    /// let sources: Vec<_> = tokenizer.placed_tokens().map(|(_, place)| &page[place]).collect();
    /// assert_eq!(sources, ["<p>", "1 &lt; 2", "<A HREF = x >", ""]);
    /// # Ok::<(), firnuubal::Error>(())
    /// ```
    ///
    /// # Panics
    ///
    /// Where the options have no `places`.
    pub fn placed_tokens(&mut self) -> PlacedTokens<'_> {
        assert!(self.places, "the options have no places");
        PlacedTokens::new(self.tokens())
    }

    // Takes all that waits. What was read goes.
    fn take_all(&mut self) {
        self.read.drop_read(&mut self.taken);
        raw::take_all(&mut self.handle, raw::html5_take, &mut self.taken);
    }

    fn fed_or_error(&mut self, status: u32) -> Result<Fed, Error> {
        match status {
            0 => Ok(Fed::Done),
            1 => Ok(Fed::Script),
            2 => Ok(Fed::Encoding),
            12 => Ok(Fed::Tag),
            status => Err(Error::of_status(status, || unsafe { raw::html5_error_at(&mut self.handle) })),
        }
    }
}

impl Drop for Tokenizer {
    fn drop(&mut self) {
        let Some(said) = self.spare else {
            return;
        };
        if self.handle.is_open() {
            spares::keep(self.handle.take(), said);
        }
    }
}

// The examples of README.md.
#[doc = include_str!("../README.md")]
#[cfg(doctest)]
struct Readme;
