//! Why a call was refused.

use std::{fmt, io};

/// Why a call was refused.
#[derive(Clone, Debug, PartialEq, Eq)]
#[non_exhaustive]
pub enum Error {
    /// A request for memory was refused.
    NoMemory,
    /// The byte at this place, counted from the first that was fed, is not UTF-8. All before it was read.
    NotUtf8 {
        /// The place.
        at: u64,
    },
    /// The input ends inside a character.
    Cut,
    /// Text waits after a pause: feed first, if only no bytes.
    Waiting,
    /// A tag or another item is open, so no state can be set.
    ItemOpen,
    /// More bytes would be held than the limit. The piece was not taken.
    Limit,
    /// The page has ended, or an earlier call was refused for good.
    Over,
    /// No encoding has this label.
    UnknownEncoding,
    /// Bytes were fed already, so it can't be set in which encoding they are.
    Begun,
    /// Places don't go with the other options.
    NoPlaces,
    /// A line of a policy's text is refused.
    BadPolicy {
        /// The number of the line, from 1.
        line: u64,
        /// What is wrong with it.
        fault: PolicyFault,
    },
    /// A policy's builder refused an argument.
    BadRule {
        /// The method that got it, as `tag_attributes`.
        method: &'static str,
        /// The name that is refused, as it was given.
        word: String,
        /// What is wrong with it.
        fault: PolicyFault,
    },
}

/// What is wrong with a rule of a policy.
#[derive(Clone, Copy, Debug, PartialEq, Eq)]
#[non_exhaustive]
pub enum PolicyFault {
    /// The first word of a line is not a rule.
    UnknownRule,
    /// The rule wants a name.
    NoName,
    /// The rule takes no such name.
    WordTooMany,
    /// No tag is read with this name: it has capital letters or spaces, or is empty.
    ElementName,
    /// No attribute is read with this name.
    AttributeName,
    /// The content of this element is always dropped, as in `script`.
    HidesContent,
    /// This element acts on the whole page, as `base` does.
    ActsOnPage,
    /// An element is both allowed and hidden.
    AllowedAndHidden,
    /// This attribute runs scripts, or holds no single address, as `onclick` or `srcset`.
    NeverKept,
    /// Not a scheme in lower case.
    SchemeName,
    /// Addresses of this scheme run their content, as `javascript`.
    RunsAddress,
    /// A page with this element can't be made to fit: it has no place in the tree.
    NoPlaceInTree,
    /// The depth is not a number from 1 to 4096.
    Depth,
    /// A depth is said, and no tree is made.
    DepthWithoutTree,
    /// A word of `rel` has another character than ASCII letters, digits and hyphens.
    RelWord,
}

impl PolicyFault {
    // The fault that a status says.
    pub(crate) fn of_status(status: u32) -> Option<PolicyFault> {
        Some(match status {
            16 => PolicyFault::UnknownRule,
            17 => PolicyFault::NoName,
            18 => PolicyFault::WordTooMany,
            19 => PolicyFault::ElementName,
            20 => PolicyFault::AttributeName,
            21 => PolicyFault::HidesContent,
            22 => PolicyFault::ActsOnPage,
            23 => PolicyFault::AllowedAndHidden,
            24 => PolicyFault::NeverKept,
            25 => PolicyFault::SchemeName,
            26 => PolicyFault::RunsAddress,
            27 => PolicyFault::NoPlaceInTree,
            28 => PolicyFault::Depth,
            29 => PolicyFault::RelWord,
            _ => return None,
        })
    }
}

impl fmt::Display for PolicyFault {
    fn fmt(&self, f: &mut fmt::Formatter<'_>) -> fmt::Result {
        f.write_str(match self {
            PolicyFault::UnknownRule => "unknown rule",
            PolicyFault::NoName => "missing name after the rule",
            PolicyFault::WordTooMany => "too many words after the rule",
            PolicyFault::ElementName => "invalid tag name",
            PolicyFault::AttributeName => "invalid attribute name",
            PolicyFault::HidesContent => "the element can't be allowed: its content is always dropped",
            PolicyFault::ActsOnPage => "the element can't be allowed: it affects the page around it",
            PolicyFault::AllowedAndHidden => "the element is both allowed and hidden",
            PolicyFault::NeverKept => "the attribute can't be allowed: it runs scripts or isn't a single URL",
            PolicyFault::SchemeName => "invalid scheme: it must be lower case",
            PolicyFault::RunsAddress => "the scheme can't be allowed: its URLs run their content",
            PolicyFault::NoPlaceInTree => {
                "the element can't be allowed with the rule tree: it has no place in the tree"
            }
            PolicyFault::Depth => "the depth must be a number from 1 to 4096",
            PolicyFault::DepthWithoutTree => "a depth needs the rule tree",
            PolicyFault::RelWord => "words of rel can only have letters, digits and hyphens",
        })
    }
}

impl Error {
    // The error of a status other than success. A handle that lack of memory closed is over, too.
    pub(crate) fn of_status(status: u32, at: impl FnOnce() -> u64) -> Error {
        match status {
            3 => Error::NoMemory,
            4 => Error::NotUtf8 { at: at() },
            5 => Error::Cut,
            6 => Error::Waiting,
            13 => Error::ItemOpen,
            14 => Error::Limit,
            9 => Error::UnknownEncoding,
            15 => Error::Begun,
            _ => Error::Over,
        }
    }
}

impl fmt::Display for Error {
    fn fmt(&self, f: &mut fmt::Formatter<'_>) -> fmt::Result {
        match self {
            Error::NoMemory => f.write_str("out of memory"),
            Error::NotUtf8 { at } => write!(f, "invalid UTF-8 at byte {at}"),
            Error::Cut => f.write_str("the input ends inside a character"),
            Error::Waiting => f.write_str("text after a pause was not fed yet"),
            Error::ItemOpen => f.write_str("a tag or other item is incomplete"),
            Error::Limit => f.write_str("more bytes would be held than the limit"),
            Error::Over => f.write_str("the reading has ended"),
            Error::UnknownEncoding => f.write_str("no encoding has this label"),
            Error::Begun => f.write_str("the page has already begun"),
            Error::NoPlaces => f.write_str("places can't be combined with the other options"),
            Error::BadPolicy { line, fault } => write!(f, "line {line} of the policy: {fault}"),
            Error::BadRule { method, word, fault } => write!(f, "{method} {word:?}: {fault}"),
        }
    }
}

impl std::error::Error for Error {}

impl From<Error> for io::Error {
    fn from(error: Error) -> io::Error {
        let kind = match error {
            Error::NoMemory | Error::Limit => io::ErrorKind::OutOfMemory,
            Error::NotUtf8 { .. } | Error::Cut => io::ErrorKind::InvalidData,
            _ => io::ErrorKind::InvalidInput,
        };
        io::Error::new(kind, error)
    }
}
