//! Prints what html5ever tells of a text, in the lines that html5tok prints (docs/GRAMMAR.md).
//!
//!     beside [--state data|plaintext] [--exact] [--cut N]
//!
//! It reads its input whole, and writes what it prints a page at a time, as html5tok does.

use beside::reply;
use html5ever::tendril::{fmt::UTF8, ByteTendril, ReadExt, StrTendril};
use html5ever::tokenizer::{
    states, BufferQueue, Doctype, Tag, TagKind, Token, TokenSink, TokenSinkResult, Tokenizer,
    TokenizerOpts, TokenizerResult,
};
use std::io::{self, Write};
use std::process::ExitCode;

/// How many bytes of lines wait before they are written.
const PAGE: usize = 65_536;

/// The lines that were printed and not written yet. A text at their end is open: other texts may join it.
#[derive(Default)]
struct Page {
    lines: Vec<u8>,
    // Whether lines could not be written.
    has_failed: bool,
    in_text: bool,
    // Whether a duplicate attribute was reported since the last tag: this version marks no tag.
    has_duplicates: bool,
}

// Without a branch, so that 16 bytes are looked at as one vector.
fn needs_escape(byte: u8) -> bool {
    (byte < 0x20) | (byte == b'"') | (byte == b'\\') | (byte == 0x7F)
}

/// How many bytes at the front stand in quotes as they are.
fn plain_len(text: &[u8]) -> usize {
    let mut len = 0;
    for chunk in text.chunks_exact(16) {
        if chunk
            .iter()
            .fold(false, |found, &byte| found | needs_escape(byte))
        {
            break;
        }
        len += chunk.len();
    }
    len + text[len..]
        .iter()
        .take_while(|&&byte| !needs_escape(byte))
        .count()
}

impl Page {
    fn write(&mut self) {
        self.has_failed |= io::stdout().lock().write_all(&self.lines).is_err();
        self.lines.clear();
    }

    fn push(&mut self, text: &str) {
        self.lines.extend_from_slice(text.as_bytes());
    }

    fn push_number(&mut self, mut number: u64) {
        let mut digits = [0; 20];
        let mut start = digits.len();
        while number > 0 || start == digits.len() {
            start -= 1;
            digits[start] = b'0' + (number % 10) as u8;
            number /= 10;
        }
        self.lines.extend_from_slice(&digits[start..]);
    }

    fn push_escape(&mut self, byte: u8) {
        match byte {
            b'\\' => self.push("\\\\"),
            b'"' => self.push("\\\""),
            b'\n' => self.push("\\n"),
            _ => self.push(&format!("\\u{{{byte:x}}}")),
        }
    }

    fn push_quoted_bytes(&mut self, text: &str) {
        let mut rest = text.as_bytes();
        loop {
            let (plain, after) = rest.split_at(plain_len(rest));
            self.lines.extend_from_slice(plain);
            let Some((&byte, after)) = after.split_first() else {
                return;
            };
            self.push_escape(byte);
            rest = after;
        }
    }

    fn push_quoted(&mut self, text: &str) {
        self.push("\"");
        self.push_quoted_bytes(text);
        self.push("\"");
    }

    fn push_text(&mut self, text: &str) {
        if text.is_empty() {
            return;
        }
        if !self.in_text {
            self.push("text \"");
            self.in_text = true;
        }
        self.push_quoted_bytes(text);
    }

    /// Closes a text that is open, and begins a line.
    fn push_line_start(&mut self, word: &str, line: u64) {
        if self.in_text {
            self.push("\"\n");
            self.in_text = false;
        }
        self.push(word);
        self.push(" ");
        self.push_number(line);
    }

    fn push_quoted_line(&mut self, word: &str, line: u64, text: &str) {
        self.push_line_start(word, line);
        self.push(" ");
        self.push_quoted(text);
        self.push("\n");
    }

    fn push_tag(&mut self, tag: &Tag, line: u64) {
        let word = match tag.kind {
            TagKind::StartTag => "start",
            TagKind::EndTag => "end",
        };
        self.push_line_start(word, line);
        self.push(" ");
        self.push_quoted(&tag.name);
        for attribute in &tag.attrs {
            self.push(" ");
            self.push_quoted(&attribute.name.local);
            self.push("=");
            self.push_quoted(&attribute.value);
        }
        if tag.self_closing {
            self.push(" self-closing");
        }
        if std::mem::take(&mut self.has_duplicates) {
            self.push(" duplicates");
        }
        self.push("\n");
    }

    fn push_doctype(&mut self, doctype: &Doctype, line: u64) {
        self.push_line_start("doctype", line);
        for part in [&doctype.name, &doctype.public_id, &doctype.system_id] {
            self.push(" ");
            match part {
                Some(text) => self.push_quoted(text),
                None => self.push("-"),
            }
        }
        if doctype.force_quirks {
            self.push(" quirks");
        }
        self.push("\n");
    }

    /// Replies to a tag that was printed, and prints its pause.
    fn reply(&mut self, tag: &Tag) -> TokenSinkResult<()> {
        if tag.kind == TagKind::EndTag && &*tag.name == "script" {
            self.push("pause script\n");
            return TokenSinkResult::Script(());
        }
        reply(tag)
    }
}

impl TokenSink for Page {
    type Handle = ();

    fn process_token(&mut self, token: Token, line: u64) -> TokenSinkResult<()> {
        if self.lines.len() >= PAGE {
            self.write();
        }
        match token {
            Token::CharacterTokens(text) => self.push_text(&text),
            Token::TagToken(tag) => {
                self.push_tag(&tag, line);
                return self.reply(&tag);
            }
            Token::ParseError(message) => {
                self.has_duplicates |= message == "Duplicate attribute";
                self.push_quoted_line("error", line, &message);
            }
            Token::CommentToken(text) => self.push_quoted_line("comment", line, &text),
            Token::DoctypeToken(doctype) => self.push_doctype(&doctype, line),
            Token::NullCharacterToken => {
                self.push_line_start("null", line);
                self.push("\n");
            }
            Token::EOFToken => {
                self.push_line_start("eof", line);
                self.push("\n");
            }
        }
        TokenSinkResult::Continue
    }
}

struct Settings {
    opts: TokenizerOpts,
    /// How many characters are fed at once, or none for all.
    cut: Option<usize>,
}

/// What the command line says, where it says something.
fn settings() -> Option<Settings> {
    let mut opts = TokenizerOpts::default();
    let mut cut = None;
    let mut words = std::env::args().skip(1);
    while let Some(word) = words.next() {
        match word.as_str() {
            "--exact" => opts.exact_errors = true,
            "--cut" => cut = Some(words.next()?.parse().ok().filter(|&count| count > 0)?),
            "--state" => {
                opts.initial_state = Some(match words.next()?.as_str() {
                    "data" => states::Data,
                    "plaintext" => states::Plaintext,
                    _ => return None,
                })
            }
            _ => return None,
        }
    }
    Some(Settings { opts, cut })
}

/// Feeds a text, past its pauses.
fn feed(tokenizer: &mut Tokenizer<Page>, queue: &mut BufferQueue, text: StrTendril) {
    queue.push_back(text);
    while let TokenizerResult::Script(()) = tokenizer.feed(queue) {}
}

fn feed_pieces(tokenizer: &mut Tokenizer<Page>, text: &str, cut: usize) {
    let mut queue = BufferQueue::new();
    let mut rest = text;
    while !rest.is_empty() {
        let mut chars = rest.chars();
        chars.nth(cut - 1);
        let (piece, after) = rest.split_at(rest.len() - chars.as_str().len());
        feed(tokenizer, &mut queue, StrTendril::from_slice(piece));
        rest = after;
    }
}

/// Prints the tokens of a text, and answers whether all of it could be written.
fn print(text: StrTendril, settings: Settings) -> bool {
    let mut tokenizer = Tokenizer::new(Page::default(), settings.opts);
    match settings.cut {
        Some(cut) => feed_pieces(&mut tokenizer, &text, cut),
        None => feed(&mut tokenizer, &mut BufferQueue::new(), text),
    }
    tokenizer.end();
    let mut page = tokenizer.sink;
    page.write();
    !page.has_failed
}

fn main() -> ExitCode {
    let Some(settings) = settings() else {
        eprintln!("usage: beside [--state data|plaintext] [--exact] [--cut N]");
        return ExitCode::from(2);
    };
    let mut bytes = ByteTendril::new();
    if io::stdin().lock().read_to_tendril(&mut bytes).is_err() {
        return ExitCode::from(6);
    }
    let Ok(text) = bytes.try_reinterpret::<UTF8>() else {
        eprintln!("input is not UTF-8");
        return ExitCode::from(3);
    };
    if print(text, settings) {
        ExitCode::SUCCESS
    } else {
        ExitCode::from(6)
    }
}
