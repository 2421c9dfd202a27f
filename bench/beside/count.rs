//! Counts the tokens of a page over html5ever, as the examples `count` of bindings/ do.
//!
//!     count
//!
//! It reads standard input as it arrives. Its sink only counts; adjacent texts are one.

use beside::{read_input, reply};
use html5ever::tokenizer::{Tag, Token, TokenSink, TokenSinkResult};
use std::process::ExitCode;

#[derive(Default)]
struct Counts {
    tags: u64,
    attributes: u64,
    attribute_bytes: usize,
    texts: u64,
    text_bytes: usize,
    comments: u64,
    errors: u64,
    in_text: bool,
}

impl Counts {
    fn take_tag(&mut self, tag: &Tag) {
        self.tags += 1;
        for attribute in &tag.attrs {
            self.attributes += 1;
            self.attribute_bytes += attribute.name.local.len() + attribute.value.len();
        }
    }

    fn take_text(&mut self, text: &str) {
        self.texts += u64::from(!self.in_text && !text.is_empty());
        self.text_bytes += text.len();
    }
}

impl TokenSink for Counts {
    type Handle = ();

    fn process_token(&mut self, token: Token, _line: u64) -> TokenSinkResult<()> {
        match &token {
            Token::TagToken(tag) => self.take_tag(tag),
            Token::CharacterTokens(text) => self.take_text(text),
            Token::CommentToken(_) => self.comments += 1,
            Token::ParseError(_) => self.errors += 1,
            _ => {}
        }
        self.in_text = matches!(token, Token::CharacterTokens(_));
        match &token {
            Token::TagToken(tag) => reply(tag),
            _ => TokenSinkResult::Continue,
        }
    }
}

fn main() -> ExitCode {
    let Ok(Some(counts)) = read_input(Counts::default()) else {
        return ExitCode::FAILURE;
    };
    println!(
        "tags {}, attributes {} of {} bytes, texts {} of {} bytes, comments {}, errors {}",
        counts.tags,
        counts.attributes,
        counts.attribute_bytes,
        counts.texts,
        counts.text_bytes,
        counts.comments,
        counts.errors
    );
    ExitCode::SUCCESS
}
