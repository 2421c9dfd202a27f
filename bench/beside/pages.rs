//! Prints the links or the text of a page, as firnuubal links and text do, over html5ever.
//!
//!     pages links|text
//!
//! It reads its input as it arrives and hands on what it prints in pieces, as those programs do.

use beside::{read_input, reply, PIECE};
use html5ever::tokenizer::{Tag, TagKind, Token, TokenSink, TokenSinkResult};
use std::io::{self, BufWriter, Stdout, Write};
use std::process::ExitCode;

/// What is taken from a page.
enum Taking {
    Links,
    Text,
}

struct Page {
    taking: Taking,
    output: BufWriter<Stdout>,
    within: bool,
    failed: bool,
}

/// The attribute that holds the link of an element of this name.
fn link_attribute(name: &str) -> Option<&'static str> {
    match name {
        "a" | "area" | "link" => Some("href"),
        "img" | "script" | "iframe" => Some("src"),
        _ => None,
    }
}

fn link_of(tag: &Tag) -> Option<&str> {
    let name = link_attribute(&tag.name)?;
    let link = tag.attrs.iter().find(|it| &*it.name.local == name)?;
    Some(&link.value)
}

impl Page {
    fn new(taking: Taking) -> Page {
        Page {
            taking,
            output: BufWriter::with_capacity(PIECE, io::stdout()),
            within: false,
            failed: false,
        }
    }

    fn print_link(&mut self, link: &str, line: u64) -> io::Result<()> {
        write!(self.output, "{line} ")?;
        for part in link.split(['\t', '\n', '\r']) {
            self.output.write_all(part.as_bytes())?;
        }
        self.output.write_all(b"\n")
    }

    fn take_tag(&mut self, tag: &Tag, line: u64) -> io::Result<()> {
        let starts = tag.kind == TagKind::StartTag;
        self.within = starts && matches!(&*tag.name, "script" | "style");
        match link_of(tag) {
            Some(link) if starts && matches!(self.taking, Taking::Links) => {
                self.print_link(link, line)
            }
            _ => Ok(()),
        }
    }

    fn take_text(&mut self, text: &str) -> io::Result<()> {
        if self.within || matches!(self.taking, Taking::Links) {
            return Ok(());
        }
        self.output.write_all(text.as_bytes())
    }
}

impl TokenSink for Page {
    type Handle = ();

    fn process_token(&mut self, token: Token, line: u64) -> TokenSinkResult<()> {
        let printed = match &token {
            Token::TagToken(tag) => self.take_tag(tag, line),
            Token::CharacterTokens(text) => self.take_text(text),
            _ => Ok(()),
        };
        self.failed |= printed.is_err();
        match &token {
            Token::TagToken(tag) => reply(tag),
            _ => TokenSinkResult::Continue,
        }
    }
}

fn run(taking: Taking) -> io::Result<bool> {
    let Some(mut page) = read_input(Page::new(taking))? else {
        return Ok(false);
    };
    page.output.flush()?;
    Ok(!page.failed)
}

fn main() -> ExitCode {
    let taking = match std::env::args().nth(1).as_deref() {
        Some("links") => Taking::Links,
        Some("text") => Taking::Text,
        _ => {
            eprintln!("usage: pages links|text");
            return ExitCode::from(2);
        }
    };
    match run(taking) {
        Ok(true) => ExitCode::SUCCESS,
        _ => ExitCode::FAILURE,
    }
}
