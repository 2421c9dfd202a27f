//! The rules of a policy, and handles of cleaners by them.

use crate::raw::{self, Handle};
use crate::{Error, PolicyFault};

/// What a policy is made of.
#[derive(Debug, Default, PartialEq, Eq)]
pub(crate) enum Rules {
    /// The standard policy.
    #[default]
    Standard,
    /// A rule a line.
    Text(String),
    /// Rules one by one.
    Each(Vec<Rule>),
}

/// What a rule says, by its number in the library.
#[derive(Clone, Copy, Debug, PartialEq, Eq)]
#[repr(u32)]
pub(crate) enum Kind {
    Allow = 0,
    Attribute = 1,
    Everywhere = 2,
    Scheme = 3,
    Hide = 4,
    Rel = 5,
    Balance = 6,
    Tree = 7,
    Depth = 8,
}

/// A rule: a name, and of `Kind::Attribute` an attribute, each as it was given.
#[derive(Debug, PartialEq, Eq)]
pub(crate) struct Rule {
    pub(crate) kind: Kind,
    pub(crate) name: String,
    pub(crate) attribute: String,
}

impl Rules {
    /// A handle of a cleaner by these rules, at the start of a page.
    pub(crate) fn open(&self) -> Result<Handle, Error> {
        match self {
            Rules::Standard => open_text(""),
            Rules::Text(text) => open_text(text),
            Rules::Each(rules) => open_each(rules),
        }
    }
}

// A text of no bytes is the standard policy.
fn open_text(text: &str) -> Result<Handle, Error> {
    let mut handle = Handle::CLOSED;
    let mut line = 0;
    let status = unsafe { raw::html5_cleaner_new(&mut handle, text.as_ptr(), text.len(), &mut line) };
    match (status, PolicyFault::of_status(status)) {
        (0, _) => Ok(handle),
        (_, Some(fault)) => Err(Error::BadPolicy { line, fault }),
        _ => Err(Error::of_status(status, || 0)),
    }
}

fn open_each(rules: &[Rule]) -> Result<Handle, Error> {
    let mut adding = Adding::new()?;
    for rule in rules {
        // Each was taken before.
        adding.add(rule)?.map_err(|_| Error::Over)?;
    }
    adding.begin()
}

/// A policy to which rules are added.
pub(crate) struct Adding {
    handle: Handle,
}

impl Adding {
    /// A policy that keeps text alone.
    pub(crate) fn new() -> Result<Adding, Error> {
        let mut handle = Handle::CLOSED;
        match unsafe { raw::html5_policy_new(&mut handle) } {
            0 => Ok(Adding { handle }),
            status => Err(Error::of_status(status, || 0)),
        }
    }

    /// Adds a rule, or answers what is wrong with it. Then the policy is as it was.
    pub(crate) fn add(&mut self, rule: &Rule) -> Result<Result<(), PolicyFault>, Error> {
        let (name, attribute) = (rule.name.as_bytes(), rule.attribute.as_bytes());
        let status = unsafe {
            raw::html5_policy_add(
                &mut self.handle,
                rule.kind as u32,
                name.as_ptr(),
                name.len(),
                attribute.as_ptr(),
                attribute.len(),
            )
        };
        match (status, PolicyFault::of_status(status)) {
            (0, _) => Ok(Ok(())),
            (_, Some(fault)) => Ok(Err(fault)),
            _ => Err(Error::of_status(status, || 0)),
        }
    }

    /// A cleaner by the policy, at the start of a page.
    pub(crate) fn begin(mut self) -> Result<Handle, Error> {
        match unsafe { raw::html5_cleaner_begin(&mut self.handle) } {
            0 => Ok(self.handle),
            status => Err(Error::of_status(status, || 0)),
        }
    }
}
