//! Tokens that own their texts.

use crate::record::{Tag, Token};

/// A token that owns its texts. A line is the one on which the token ends.
#[derive(Clone, Debug, PartialEq, Eq)]
#[allow(missing_docs)] // the fields say themselves
pub enum OwnedToken {
    /// A start tag.
    StartTag(OwnedTag),
    /// An end tag.
    EndTag(OwnedTag),
    /// A run of text.
    Text(String),
    /// A comment.
    Comment { line: u64, text: String },
    /// A processing instruction: the text between `<?` and `>`.
    Instruction { line: u64, content: String },
    /// A document type.
    Doctype {
        line: u64,
        name: Option<String>,
        public_id: Option<String>,
        system_id: Option<String>,
        force_quirks: bool,
    },
    /// U+0000 in text.
    NullCharacter { line: u64 },
    /// A parse error.
    ParseError { line: u64, message: String },
    /// The end of the page.
    End { line: u64 },
}

/// A tag that owns its texts.
#[derive(Clone, Debug, PartialEq, Eq)]
pub struct OwnedTag {
    /// The line on which its `>` stands.
    pub line: u64,
    /// Its name, in small letters.
    pub name: String,
    /// Its attributes, each a name and a value, in order.
    pub attributes: Vec<(String, String)>,
    /// Whether it ends in `/>`.
    pub self_closing: bool,
    /// An attribute of a repeated name was left out.
    pub duplicate_attributes: bool,
}

impl From<Tag<'_>> for OwnedTag {
    fn from(tag: Tag<'_>) -> OwnedTag {
        OwnedTag {
            line: tag.line,
            name: tag.name.into(),
            attributes: tag.attributes.map(|(name, value)| (name.into(), value.into())).collect(),
            self_closing: tag.self_closing,
            duplicate_attributes: tag.duplicate_attributes,
        }
    }
}

impl From<Token<'_>> for OwnedToken {
    fn from(token: Token<'_>) -> OwnedToken {
        match token {
            Token::StartTag(tag) => OwnedToken::StartTag(tag.into()),
            Token::EndTag(tag) => OwnedToken::EndTag(tag.into()),
            Token::Text(text) => OwnedToken::Text(text.into()),
            Token::Comment { line, text } => OwnedToken::Comment { line, text: text.into() },
            Token::Instruction { line, content } => OwnedToken::Instruction { line, content: content.into() },
            Token::Doctype(doctype) => OwnedToken::Doctype {
                line: doctype.line,
                name: doctype.name.map(String::from),
                public_id: doctype.public_id.map(String::from),
                system_id: doctype.system_id.map(String::from),
                force_quirks: doctype.force_quirks,
            },
            Token::NullCharacter { line } => OwnedToken::NullCharacter { line },
            Token::ParseError { line, message } => OwnedToken::ParseError { line, message: message.into() },
            Token::End { line } => OwnedToken::End { line },
        }
    }
}
