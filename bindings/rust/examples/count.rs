//! Counts the tokens of a page, which it reads as it arrives from standard input.
//!
//!     count < PAGE

use firnuubal::{Options, Tag, Token, Tokenizer};
use std::error::Error;
use std::io::{self, Read};

#[derive(Default)]
struct Counts {
    tags: u64,
    attributes: u64,
    attribute_bytes: usize,
    texts: u64,
    text_bytes: usize,
    comments: u64,
    errors: u64,
}

impl Counts {
    fn take_tag(&mut self, tag: Tag<'_>) {
        self.tags += 1;
        for (name, value) in tag.attributes {
            self.attributes += 1;
            self.attribute_bytes += name.len() + value.len();
        }
    }

    fn take(&mut self, token: Token<'_>) {
        match token {
            Token::StartTag(tag) | Token::EndTag(tag) => self.take_tag(tag),
            Token::Text(text) => {
                self.texts += 1;
                self.text_bytes += text.len();
            }
            Token::Comment { .. } => self.comments += 1,
            Token::ParseError { .. } => self.errors += 1,
            _ => {}
        }
    }
}

fn main() -> Result<(), Box<dyn Error>> {
    let mut bytes = vec![0; 1 << 16];
    let mut counts = Counts::default();
    let mut tokenizer = Tokenizer::new(&Options::default())?;
    loop {
        let len = io::stdin().read(&mut bytes)?;
        if len == 0 {
            break;
        }
        tokenizer.feed(&bytes[..len])?;
        tokenizer.tokens().for_each(|token| counts.take(token));
    }
    tokenizer.end()?;
    tokenizer.tokens().for_each(|token| counts.take(token));
    println!(
        "tags {}, attributes {} of {} bytes, texts {} of {} bytes, comments {}, errors {}",
        counts.tags,
        counts.attributes,
        counts.attribute_bytes,
        counts.texts,
        counts.text_bytes,
        counts.comments,
        counts.errors
    );
    Ok(())
}
