//! Prints of a page what is allowed, as firnuubal clean does by the standard policy without the rule `tree`, over html5ever.
//!
//!     clean
//!
//! It reads its input as it arrives and prints as it goes. What it keeps is what the policy of
//! crates/html5policy/README.md says.

use beside::{read_input, reply, write_escaped, PIECE};
use html5ever::tokenizer::{Tag, TagKind, Token, TokenSink, TokenSinkResult};
use html5ever::{local_name, Attribute, LocalName};
use std::io::{self, BufWriter, Stdout, Write};
use std::process::ExitCode;

macro_rules! is_one_of {
    ($name:expr, $($known:tt)+) => { matches!($name, $(&local_name!($known))|+) };
}

fn is_allowed(element: &LocalName) -> bool {
    is_one_of!(
        element,
        "a" "abbr" "b" "blockquote" "br" "caption" "cite" "code" "dd" "del" "div" "dl" "dt" "em"
        "h1" "h2" "h3" "h4" "h5" "h6" "hr" "i" "img" "ins" "kbd" "li" "mark" "ol" "p" "pre" "q" "s"
        "samp" "small" "span" "strong" "sub" "sup" "table" "tbody" "td" "tfoot" "th" "thead" "tr"
        "u" "ul" "var" "wbr"
    )
}

/// Whether an element has no end tag.
fn is_void(element: &LocalName) -> bool {
    is_one_of!(element, "br" "hr" "img" "wbr")
}

/// Whether an element is dropped with its content.
fn is_hider(element: &LocalName) -> bool {
    is_one_of!(
        element,
        "iframe" "math" "noembed" "noframes" "noscript" "plaintext" "script" "style" "svg"
        "template" "textarea" "title" "xmp"
    )
}

/// Whether an attribute may stand in an element.
fn is_attribute_of(element: &LocalName, attribute: &LocalName) -> bool {
    if is_one_of!(attribute, "title" "lang" "dir") {
        return true;
    }
    match *element {
        local_name!("a") => is_one_of!(attribute, "href"),
        local_name!("img") => is_one_of!(attribute, "src" "alt" "width" "height"),
        local_name!("ol") => is_one_of!(attribute, "start"),
        local_name!("blockquote") | local_name!("q") | local_name!("del") | local_name!("ins") => {
            is_one_of!(attribute, "cite")
        }
        _ => false,
    }
}

/// Whether no colon stands before the first `/`, `?` or `#`.
fn is_relative(address: &str) -> bool {
    let mark = address
        .bytes()
        .find(|it| matches!(it, b':' | b'/' | b'?' | b'#'));
    mark != Some(b':')
}

/// Whether an address has this scheme, in any case. White space and controls in it are passed over.
fn has_scheme(address: &str, scheme: &str) -> bool {
    let letters = address.bytes().filter(|&it| it > b' ');
    let front = letters.map(|it| it.to_ascii_lowercase()).take(scheme.len());
    front.eq(scheme.bytes())
}

fn is_safe_address(address: &str) -> bool {
    is_relative(address)
        || ["http:", "https:", "mailto:"]
            .iter()
            .any(|it| has_scheme(address, it))
}

fn is_kept(element: &LocalName, attribute: &Attribute) -> bool {
    let name = &attribute.name.local;
    is_attribute_of(element, name)
        && (!is_one_of!(name, "href" "src" "cite") || is_safe_address(&attribute.value))
}

/// Whether a tag begins an element that is dropped with its content: `<svg/>` has nothing in it.
fn opens_hidden(tag: &Tag) -> bool {
    let is_empty = tag.self_closing && is_one_of!(&tag.name, "svg" "math");
    tag.kind == TagKind::StartTag && is_hider(&tag.name) && !is_empty
}

/// How many elements of one name are open that hide their content.
struct Hidden {
    name: LocalName,
    depth: u64,
}

impl Hidden {
    fn pass_tag(&mut self, tag: &Tag) {
        let opens = opens_hidden(tag);
        if self.depth == 0 && opens {
            self.name = tag.name.clone();
            self.depth = 1;
        } else if self.depth > 0 && tag.name == self.name {
            match tag.kind {
                TagKind::StartTag => self.depth += u64::from(opens),
                TagKind::EndTag => self.depth -= 1,
            }
        }
    }
}

struct Page {
    output: BufWriter<Stdout>,
    hidden: Hidden,
    failed: bool,
}

impl Page {
    fn new() -> Page {
        Page {
            output: BufWriter::with_capacity(PIECE, io::stdout()),
            hidden: Hidden {
                name: local_name!(""),
                depth: 0,
            },
            failed: false,
        }
    }

    fn print(&mut self, text: &str) -> io::Result<()> {
        self.output.write_all(text.as_bytes())
    }

    fn print_start_tag(&mut self, tag: &Tag) -> io::Result<()> {
        self.print("<")?;
        self.print(&tag.name)?;
        for attribute in tag.attrs.iter().filter(|it| is_kept(&tag.name, it)) {
            self.print(" ")?;
            self.print(&attribute.name.local)?;
            self.print("=\"")?;
            write_escaped(&mut self.output, &attribute.value)?;
            self.print("\"")?;
        }
        self.print(">")
    }

    fn print_end_tag(&mut self, tag: &Tag) -> io::Result<()> {
        self.print("</")?;
        self.print(&tag.name)?;
        self.print(">")
    }

    fn print_tag(&mut self, tag: &Tag) -> io::Result<()> {
        if self.hidden.depth > 0 || !is_allowed(&tag.name) {
            return Ok(());
        }
        match tag.kind {
            TagKind::StartTag => self.print_start_tag(tag),
            TagKind::EndTag if is_void(&tag.name) => Ok(()),
            TagKind::EndTag => self.print_end_tag(tag),
        }
    }

    fn take_tag(&mut self, tag: &Tag) -> io::Result<()> {
        self.print_tag(tag)?;
        self.hidden.pass_tag(tag);
        Ok(())
    }

    fn take_text(&mut self, text: &str) -> io::Result<()> {
        if self.hidden.depth > 0 {
            return Ok(());
        }
        write_escaped(&mut self.output, text)
    }
}

impl TokenSink for Page {
    type Handle = ();

    fn process_token(&mut self, token: Token, _line: u64) -> TokenSinkResult<()> {
        let printed = match &token {
            Token::TagToken(tag) => self.take_tag(tag),
            Token::CharacterTokens(text) => self.take_text(text),
            _ => Ok(()),
        };
        self.failed |= printed.is_err();
        match &token {
            Token::TagToken(tag) => reply(tag),
            _ => TokenSinkResult::Continue,
        }
    }
}

fn run() -> io::Result<bool> {
    let Some(mut page) = read_input(Page::new())? else {
        return Ok(false);
    };
    page.output.flush()?;
    Ok(!page.failed)
}

fn main() -> ExitCode {
    match run() {
        Ok(true) => ExitCode::SUCCESS,
        _ => ExitCode::FAILURE,
    }
}
