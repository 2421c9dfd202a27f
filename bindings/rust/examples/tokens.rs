//! Prints the tokens of a page, a line each, as html5tok does.
//!
//!     tokens [PIECE [places]] < PAGE
//!
//! The page is fed in pieces of PIECE bytes, or 4096. With `places` each line begins with the byte of the page where the token
//! begins, and the byte after its last; then nothing pauses.

use firnuubal::{Doctype, Fed, Options, Replies, Tag, Token, Tokenizer};
use std::env;
use std::error::Error;
use std::fmt;
use std::io::{self, BufWriter, Read, Write};

/// A text in quotes.
struct Quoted<'q>(&'q str);

impl fmt::Display for Quoted<'_> {
    fn fmt(&self, f: &mut fmt::Formatter<'_>) -> fmt::Result {
        f.write_str("\"")?;
        for c in self.0.chars() {
            match c {
                '\\' | '"' => write!(f, "\\{c}")?,
                '\n' => f.write_str("\\n")?,
                '\0'..='\x1F' | '\x7F' => write!(f, "\\u{{{:x}}}", c as u32)?,
                _ => write!(f, "{c}")?,
            }
        }
        f.write_str("\"")
    }
}

fn print_tag(out: &mut impl Write, word: &str, tag: &Tag<'_>) -> io::Result<()> {
    write!(out, "{word} {} {}", tag.line, Quoted(tag.name))?;
    for (name, value) in tag.attributes.clone() {
        write!(out, " {}={}", Quoted(name), Quoted(value))?;
    }
    if tag.self_closing {
        write!(out, " self-closing")?;
    }
    if tag.duplicate_attributes {
        write!(out, " duplicates")?;
    }
    writeln!(out)
}

fn print_doctype(out: &mut impl Write, doctype: &Doctype<'_>) -> io::Result<()> {
    write!(out, "doctype {}", doctype.line)?;
    for part in [doctype.name, doctype.public_id, doctype.system_id] {
        match part {
            Some(text) => write!(out, " {}", Quoted(text))?,
            None => write!(out, " -")?,
        }
    }
    writeln!(out, "{}", if doctype.force_quirks { " quirks" } else { "" })
}

fn print_token(out: &mut impl Write, token: &Token<'_>) -> io::Result<()> {
    match token {
        Token::StartTag(tag) => print_tag(out, "start", tag),
        Token::EndTag(tag) => print_tag(out, "end", tag),
        Token::Text(text) => writeln!(out, "text {}", Quoted(text)),
        Token::Comment { line, text } => writeln!(out, "comment {line} {}", Quoted(text)),
        Token::Instruction { line, content } => writeln!(out, "pi {line} {}", Quoted(content)),
        Token::Doctype(doctype) => print_doctype(out, doctype),
        Token::NullCharacter { line } => writeln!(out, "null {line}"),
        Token::ParseError { line, message } => writeln!(out, "error {line} {}", Quoted(message)),
        Token::End { line } => writeln!(out, "eof {line}"),
    }
}

/// Prints the waiting tokens, with places.
fn print_placed(out: &mut impl Write, tokenizer: &mut Tokenizer) -> io::Result<()> {
    for (token, place) in tokenizer.placed_tokens() {
        write!(out, "{} {} ", place.start, place.end)?;
        print_token(out, &token)?;
    }
    Ok(())
}

/// Prints the waiting tokens, and after a pause its line.
fn print_waiting(out: &mut impl Write, tokenizer: &mut Tokenizer, fed: Fed) -> io::Result<()> {
    let mut charset = "";
    for token in tokenizer.tokens() {
        print_token(out, &token)?;
        if let Token::StartTag(tag) = token {
            let named = tag.attributes.clone().find(|(name, _)| *name == "charset");
            charset = named.map_or("", |(_, value)| value);
        }
    }
    match fed {
        Fed::Done | Fed::Tag => Ok(()),
        Fed::Script => writeln!(out, "pause script"),
        Fed::Encoding => writeln!(out, "pause encoding {}", Quoted(charset)),
    }
}

/// Feeds a piece, past all pauses, and prints the tokens.
fn feed(out: &mut impl Write, tokenizer: &mut Tokenizer, piece: &[u8], places: bool) -> Result<(), Box<dyn Error>> {
    let mut fed = tokenizer.feed(piece)?;
    if places {
        return Ok(print_placed(out, tokenizer)?);
    }
    print_waiting(out, tokenizer, fed)?;
    while fed != Fed::Done {
        fed = tokenizer.feed(&[])?;
        print_waiting(out, tokenizer, fed)?;
    }
    Ok(())
}

fn main() -> Result<(), Box<dyn Error>> {
    let piece = env::args().nth(1).map_or(Ok(4096), |word| word.parse())?;
    let places = env::args().nth(2).is_some_and(|word| word == "places");
    let mut bytes = vec![0; piece];
    let out = &mut BufWriter::new(io::stdout().lock());
    let replies = if places { Replies::Standard } else { Replies::Pausing };
    let mut tokenizer = Tokenizer::new(&Options { replies, places, ..Options::default() })?;
    loop {
        let len = io::stdin().read(&mut bytes)?;
        if len == 0 {
            break;
        }
        feed(out, &mut tokenizer, &bytes[..len], places)?;
    }
    tokenizer.end()?;
    if places {
        print_placed(out, &mut tokenizer)?;
    } else {
        print_waiting(out, &mut tokenizer, Fed::Done)?;
    }
    Ok(out.flush()?)
}
