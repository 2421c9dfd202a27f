//! What the programs share: their input is fed as it arrives, tags are replied to, and texts are escaped.

use html5ever::tendril::StrTendril;
use html5ever::tokenizer::states::RawKind;
use html5ever::tokenizer::{
    BufferQueue, Tag, TagKind, TokenSink, TokenSinkResult, Tokenizer, TokenizerOpts,
    TokenizerResult,
};
use std::io::{self, Read, Write};

/// How many bytes are read at once.
pub const PIECE: usize = 1 << 16;

/// What the standard's elements ask for.
pub fn reply(tag: &Tag) -> TokenSinkResult<()> {
    match (tag.kind, &*tag.name) {
        (TagKind::StartTag, "plaintext") => TokenSinkResult::Plaintext,
        (TagKind::StartTag, "title" | "textarea") => TokenSinkResult::RawData(RawKind::Rcdata),
        (TagKind::StartTag, "style" | "xmp" | "iframe" | "noembed" | "noframes") => {
            TokenSinkResult::RawData(RawKind::Rawtext)
        }
        (TagKind::StartTag, "script") => TokenSinkResult::RawData(RawKind::ScriptData),
        _ => TokenSinkResult::Continue,
    }
}

/// How many bytes at the front are whole characters, or none if they are not UTF-8.
fn decoded_len(bytes: &[u8]) -> Option<usize> {
    match std::str::from_utf8(bytes) {
        Ok(_) => Some(bytes.len()),
        Err(error) if error.error_len().is_none() => Some(error.valid_up_to()),
        Err(_) => None,
    }
}

/// Feeds what standard input brings; answers whether it was text.
fn feed_input<S: TokenSink<Handle = ()>>(tokenizer: &mut Tokenizer<S>) -> io::Result<bool> {
    let mut input = io::stdin().lock();
    let mut queue = BufferQueue::new();
    let mut buffer = vec![0; PIECE];
    let mut held = 0;
    loop {
        let count = input.read(&mut buffer[held..])?;
        let filled = held + count;
        let Some(decoded) = decoded_len(&buffer[..filled]) else {
            return Ok(false);
        };
        if count == 0 {
            return Ok(decoded == filled);
        }
        let text = std::str::from_utf8(&buffer[..decoded]).unwrap_or_default();
        queue.push_back(StrTendril::from_slice(text));
        while let TokenizerResult::Script(()) = tokenizer.feed(&mut queue) {}
        buffer.copy_within(decoded..filled, 0);
        held = filled - decoded;
    }
}

/// Sends a sink the tokens of standard input, as it arrives; answers the sink, where it was text.
pub fn read_input<S: TokenSink<Handle = ()>>(sink: S) -> io::Result<Option<S>> {
    let mut tokenizer = Tokenizer::new(sink, TokenizerOpts::default());
    if !feed_input(&mut tokenizer)? {
        return Ok(None);
    }
    tokenizer.end();
    Ok(Some(tokenizer.sink))
}

/// What is printed for a character that doesn't stand for itself.
fn reference_of(character: char) -> Option<&'static str> {
    match character {
        '&' => Some("&#38;"),
        '<' => Some("&#60;"),
        '>' => Some("&#62;"),
        '"' => Some("&#34;"),
        '\r' => Some("&#13;"),
        '\u{FEFF}' => Some("&#65279;"),
        _ => None,
    }
}

/// Prints a text or a value, with references for what would be markup in it.
pub fn write_escaped(output: &mut impl Write, text: &str) -> io::Result<()> {
    let mut printed = 0;
    for (at, character) in text.char_indices() {
        if let Some(reference) = reference_of(character) {
            output.write_all(&text.as_bytes()[printed..at])?;
            output.write_all(reference.as_bytes())?;
            printed = at + character.len_utf8();
        }
    }
    output.write_all(&text.as_bytes()[printed..])
}
