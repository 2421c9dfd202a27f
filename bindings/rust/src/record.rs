//! Tokens, as their records have them.

use std::ops::Range;
use std::str;

/// A token. Its texts are borrowed from the tokenizer. A line is the one on which the token ends.
#[derive(Clone, Debug, PartialEq, Eq)]
#[allow(missing_docs)] // the fields say themselves
pub enum Token<'t> {
    /// A start tag.
    StartTag(Tag<'t>),
    /// An end tag.
    EndTag(Tag<'t>),
    /// A run of text, all of it, however it was fed.
    Text(&'t str),
    /// A comment.
    Comment { line: u64, text: &'t str },
    /// A processing instruction: the text between `<?` and `>`.
    Instruction { line: u64, content: &'t str },
    /// A document type.
    Doctype(Doctype<'t>),
    /// U+0000 in text.
    NullCharacter { line: u64 },
    /// A parse error, with its message as html5ever has it.
    ParseError { line: u64, message: &'t str },
    /// The end of the page.
    End { line: u64 },
}

impl Token<'_> {
    /// The line on which the token ends. A text has none.
    pub fn line(&self) -> Option<u64> {
        match self {
            Token::StartTag(tag) | Token::EndTag(tag) => Some(tag.line),
            Token::Text(_) => None,
            Token::Doctype(doctype) => Some(doctype.line),
            Token::Comment { line, .. }
            | Token::Instruction { line, .. }
            | Token::NullCharacter { line }
            | Token::ParseError { line, .. }
            | Token::End { line } => Some(*line),
        }
    }
}

/// A tag.
#[derive(Clone, Debug, PartialEq, Eq)]
pub struct Tag<'t> {
    /// The line on which its `>` stands.
    pub line: u64,
    /// Its name, in small letters.
    pub name: &'t str,
    /// Its attributes, in order.
    pub attributes: Attributes<'t>,
    /// Whether it ends in `/>`.
    pub self_closing: bool,
    /// An attribute of a repeated name was left out.
    pub duplicate_attributes: bool,
}

impl<'t> Tag<'t> {
    /// The value of the attribute of this name.
    pub fn get(&self, name: &str) -> Option<&'t str> {
        self.attributes.clone().find(|(own, _)| *own == name).map(|(_, value)| value)
    }
}

/// A document type.
#[derive(Clone, Debug, PartialEq, Eq)]
#[allow(missing_docs)] // the fields say themselves
pub struct Doctype<'t> {
    pub line: u64,
    pub name: Option<&'t str>,
    pub public_id: Option<&'t str>,
    pub system_id: Option<&'t str>,
    pub force_quirks: bool,
}

/// The attributes of a tag, each a name and a value, in order.
#[derive(Clone, Debug, PartialEq, Eq)]
pub struct Attributes<'t> {
    bytes: &'t [u8],
    count: u64,
}

impl<'t> Iterator for Attributes<'t> {
    type Item = (&'t str, &'t str);

    fn next(&mut self) -> Option<Self::Item> {
        self.count = self.count.checked_sub(1)?;
        let (name, rest) = counted(self.bytes)?;
        let (value, rest) = counted(rest)?;
        self.bytes = rest;
        Some((text(name), text(value)))
    }

    fn size_hint(&self) -> (usize, Option<usize>) {
        let count = self.count as usize;
        (count, Some(count))
    }
}

impl ExactSizeIterator for Attributes<'_> {}

// How far the bytes that were taken are read.
#[derive(Debug, Default)]
pub(crate) struct Read {
    // Where the next record begins.
    at: usize,
    // How far the end of an open text was looked for.
    searched: usize,
    // Where the next token and the run before it stand, once that is read: where each begins, and where the token ends.
    places: Option<[usize; 3]>,
}

impl Read {
    // Lets go what was read, where it is at least as much as is left: so each byte is moved a few times at most, however often
    // a token is read.
    pub(crate) fn drop_read(&mut self, taken: &mut Vec<u8>) {
        if self.at < taken.len() - self.at {
            return;
        }
        taken.drain(..self.at);
        self.searched = self.searched.saturating_sub(self.at);
        self.at = 0;
    }
}

/// The tokens that were sent and not read yet.
#[derive(Debug)]
pub struct Tokens<'t> {
    bytes: &'t [u8],
    read: &'t mut Read,
}

impl<'t> Tokens<'t> {
    pub(crate) fn new(bytes: &'t [u8], read: &'t mut Read) -> Tokens<'t> {
        Tokens { bytes, read }
    }

    // The text that begins here, where its end has come.
    fn next_text(&mut self) -> Option<(Token<'t>, usize)> {
        let begin = self.read.at + 1;
        let from = begin.max(self.read.searched);
        let Some(len) = text_len(&self.bytes[from..]) else {
            self.read.searched = self.bytes.len();
            return None;
        };
        Some((Token::Text(text(&self.bytes[begin..from + len])), from + len + 1))
    }

    fn next_other(&mut self) -> Option<(Token<'t>, usize)> {
        let bytes = &self.bytes[self.read.at..];
        let (kind, rest) = bytes.split_first()?;
        let (line, rest) = number(rest)?;
        let (token, rest) = token(*kind, line, rest)?;
        Some((token, self.bytes.len() - rest.len()))
    }

    // Reads the record of places that begins here.
    fn read_places(&mut self) -> Option<()> {
        let (places, rest) = three_numbers(&self.bytes[self.read.at + 1..])?;
        self.read.places = Some(places);
        self.read.at = self.bytes.len() - rest.len();
        Some(())
    }
}

impl<'t> Iterator for Tokens<'t> {
    type Item = Token<'t>;

    fn next(&mut self) -> Option<Token<'t>> {
        if *self.bytes.get(self.read.at)? == PLACES {
            self.read_places()?;
        }
        let (token, after) = match self.bytes.get(self.read.at)? {
            3 => self.next_text()?,
            _ => self.next_other()?,
        };
        self.read.at = after;
        Some(token)
    }
}

/// The tokens that were sent and not read yet, each with its place in the text that was fed.
#[derive(Debug)]
pub struct PlacedTokens<'t>(Tokens<'t>);

impl<'t> PlacedTokens<'t> {
    pub(crate) fn new(tokens: Tokens<'t>) -> PlacedTokens<'t> {
        PlacedTokens(tokens)
    }
}

impl<'t> Iterator for PlacedTokens<'t> {
    type Item = (Token<'t>, Range<usize>);

    fn next(&mut self) -> Option<Self::Item> {
        let token = self.0.next()?;
        let [run, begin, end] = self.0.read.places.expect("a record of places stands before each token");
        let place = if matches!(token, Token::Text(_)) { run..begin } else { begin..end };
        Some((token, place))
    }
}

// What a record of places begins with.
const PLACES: u8 = 10;

// What ends a text: a byte that UTF-8 never has.
const TEXT_END: u8 = 0xFF;

// How many bytes stand before the first end of a text. It looks at 16 at once.
fn text_len(bytes: &[u8]) -> Option<usize> {
    let has_end = |block: &&[u8]| block.iter().fold(false, |found, byte| found | (*byte == TEXT_END));
    let skipped = 16 * bytes.chunks_exact(16).take_while(|block| !has_end(block)).count();
    let len = bytes[skipped..].iter().position(|byte| *byte == TEXT_END)?;
    Some(skipped + len)
}

// The texts of records are UTF-8, as the README of html5records says. Most are ASCII, which is seen faster.
fn text(bytes: &[u8]) -> &str {
    if bytes.is_ascii() {
        // SAFETY: ASCII is UTF-8.
        return unsafe { str::from_utf8_unchecked(bytes) };
    }
    str::from_utf8(bytes).expect("the texts of records are UTF-8")
}

fn number(bytes: &[u8]) -> Option<(u64, &[u8])> {
    let (number, rest) = bytes.split_first_chunk::<8>()?;
    Some((u64::from_le_bytes(*number), rest))
}

fn three_numbers(bytes: &[u8]) -> Option<([usize; 3], &[u8])> {
    let (numbers, rest) = bytes.split_first_chunk::<24>()?;
    let number = |at| u64::from_le_bytes(numbers[at..at + 8].try_into().expect("eight bytes"));
    Some(([0, 8, 16].map(|at| number(at) as usize), rest))
}

// A text with its length in front.
fn counted(bytes: &[u8]) -> Option<(&[u8], &[u8])> {
    let (len, rest) = number(bytes)?;
    rest.split_at_checked(usize::try_from(len).ok()?)
}

fn counted_where(is_there: bool, bytes: &[u8]) -> Option<(Option<&str>, &[u8])> {
    if !is_there {
        return Some((None, bytes));
    }
    let (found, rest) = counted(bytes)?;
    Some((Some(text(found)), rest))
}

fn attributes(bytes: &[u8]) -> Option<(Attributes<'_>, &[u8])> {
    let (count, bytes) = number(bytes)?;
    let mut rest = bytes;
    for _ in 0..count {
        rest = counted(counted(rest)?.1)?.1;
    }
    Some((Attributes { bytes: &bytes[..bytes.len() - rest.len()], count }, rest))
}

fn tag(line: u64, bytes: &[u8]) -> Option<(Tag<'_>, &[u8])> {
    let (flags, rest) = bytes.split_first()?;
    let (name, rest) = counted(rest)?;
    let (attributes, rest) = attributes(rest)?;
    let tag =
        Tag { line, name: text(name), attributes, self_closing: flags & 1 != 0, duplicate_attributes: flags & 2 != 0 };
    Some((tag, rest))
}

fn doctype(line: u64, bytes: &[u8]) -> Option<(Doctype<'_>, &[u8])> {
    let (flags, rest) = bytes.split_first()?;
    let (name, rest) = counted_where(flags & 1 != 0, rest)?;
    let (public_id, rest) = counted_where(flags & 2 != 0, rest)?;
    let (system_id, rest) = counted_where(flags & 4 != 0, rest)?;
    Some((Doctype { line, name, public_id, system_id, force_quirks: flags & 8 != 0 }, rest))
}

// A token of this kind that is not a text, from what comes after its line.
fn token(kind: u8, line: u64, bytes: &[u8]) -> Option<(Token<'_>, &[u8])> {
    match kind {
        1 => tag(line, bytes).map(|(tag, rest)| (Token::StartTag(tag), rest)),
        2 => tag(line, bytes).map(|(tag, rest)| (Token::EndTag(tag), rest)),
        6 => doctype(line, bytes).map(|(doctype, rest)| (Token::Doctype(doctype), rest)),
        7 => Some((Token::NullCharacter { line }, bytes)),
        9 => Some((Token::End { line }, bytes)),
        _ => {
            let (found, rest) = counted(bytes)?;
            let text = text(found);
            let token = match kind {
                4 => Token::Comment { line, text },
                5 => Token::Instruction { line, content: text },
                8 => Token::ParseError { line, message: text },
                _ => return None,
            };
            Some((token, rest))
        }
    }
}

#[cfg(test)]
mod tests {
    use super::Read;

    // One record of two is read each time. All that is moved is of the order of what was read.
    #[test]
    fn few_bytes_are_moved() {
        let (mut read, mut taken) = (Read::default(), Vec::new());
        let (mut moved, mut unread) = (0, 0);
        for round in 0..20_000_u32 {
            taken.extend(round.to_le_bytes().repeat(2));
            read.at += 4;
            unread += 4;
            read.drop_read(&mut taken);
            moved += if read.at == 0 { taken.len() } else { 0 };
            assert_eq!(taken.len() - read.at, unread);
        }
        assert!(moved <= taken.len(), "{moved}");
        read.at = taken.len();
        read.drop_read(&mut taken);
        assert!(taken.is_empty());
    }
}
