//! Writes a page back by its tokens, as the program of crates/write_back does, over html5ever.
//!
//!     write_back
//!
//! It reads its input as it arrives and prints as it goes. A processing instruction is a comment here, as html5ever reads it.

use beside::{read_input, reply, write_escaped, PIECE};
use html5ever::tokenizer::{Doctype, Tag, TagKind, Token, TokenSink, TokenSinkResult};
use std::io::{self, BufWriter, Stdout, Write};
use std::process::ExitCode;

/// How a text is written where the next token stands.
#[derive(Clone, Copy)]
enum Place {
    Escaped,
    AsItIs,
}

struct Page {
    output: BufWriter<Stdout>,
    place: Place,
    failed: bool,
}

fn quote_for(identifier: &str) -> char {
    if identifier.contains('"') {
        '\''
    } else {
        '"'
    }
}

impl Page {
    fn new() -> Page {
        Page {
            output: BufWriter::with_capacity(PIECE, io::stdout()),
            place: Place::Escaped,
            failed: false,
        }
    }

    fn print(&mut self, text: &str) -> io::Result<()> {
        self.output.write_all(text.as_bytes())
    }

    fn print_text(&mut self, text: &str) -> io::Result<()> {
        match self.place {
            Place::Escaped => write_escaped(&mut self.output, text),
            Place::AsItIs => self.print(text),
        }
    }

    fn print_tag(&mut self, tag: &Tag) -> io::Result<()> {
        let opening = if tag.kind == TagKind::StartTag {
            "<"
        } else {
            "</"
        };
        self.print(opening)?;
        self.print(&tag.name)?;
        for attribute in &tag.attrs {
            self.print(" ")?;
            self.print(&attribute.name.local)?;
            self.print("=\"")?;
            write_escaped(&mut self.output, &attribute.value)?;
            self.print("\"")?;
        }
        self.print(if tag.self_closing { "/>" } else { ">" })
    }

    /// Quirks come of a keyword without an identifier, or of the last identifier, which is cut off.
    fn print_identifier(&mut self, identifier: &str, is_cut_off: bool) -> io::Result<()> {
        let quote = quote_for(identifier);
        write!(self.output, "{quote}{identifier}")?;
        if is_cut_off {
            return Ok(());
        }
        write!(self.output, "{quote}")
    }

    fn print_doctype(&mut self, doctype: &Doctype) -> io::Result<()> {
        self.print("<!DOCTYPE")?;
        if let Some(name) = &doctype.name {
            write!(self.output, " {name}")?;
            let quirks = doctype.force_quirks;
            if let Some(public) = &doctype.public_id {
                self.print(" PUBLIC ")?;
                self.print_identifier(public, quirks && doctype.system_id.is_none())?;
            }
            if let Some(system) = &doctype.system_id {
                self.print(if doctype.public_id.is_some() {
                    " "
                } else {
                    " SYSTEM "
                })?;
                self.print_identifier(system, quirks)?;
            }
            if quirks && doctype.public_id.is_none() && doctype.system_id.is_none() {
                self.print(" PUBLIC")?;
            }
        }
        self.print(">")
    }

    fn take(&mut self, token: &Token) -> io::Result<()> {
        match token {
            Token::TagToken(tag) => self.print_tag(tag),
            Token::CharacterTokens(text) => self.print_text(text),
            Token::CommentToken(text) => write!(self.output, "<!--{text}-->"),
            Token::DoctypeToken(doctype) => self.print_doctype(doctype),
            Token::NullCharacterToken => self.print("\0"),
            Token::ParseError(_) | Token::EOFToken => Ok(()),
        }
    }

    fn note(&mut self, tag: &Tag) {
        let is_raw = matches!(
            &*tag.name,
            "script" | "style" | "xmp" | "iframe" | "noembed" | "noframes" | "plaintext"
        );
        self.place = if tag.kind == TagKind::StartTag && is_raw {
            Place::AsItIs
        } else {
            Place::Escaped
        };
    }
}

impl TokenSink for Page {
    type Handle = ();

    fn process_token(&mut self, token: Token, _line: u64) -> TokenSinkResult<()> {
        self.failed |= self.take(&token).is_err();
        match &token {
            Token::TagToken(tag) => {
                self.note(tag);
                reply(tag)
            }
            _ => TokenSinkResult::Continue,
        }
    }
}

fn run() -> io::Result<bool> {
    let Some(mut page) = read_input(Page::new())? else {
        return Ok(false);
    };
    page.output.flush()?;
    Ok(!page.failed)
}

fn main() -> ExitCode {
    match run() {
        Ok(true) => ExitCode::SUCCESS,
        _ => ExitCode::FAILURE,
    }
}
