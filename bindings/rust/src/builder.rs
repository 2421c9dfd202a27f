//! A policy made of names.

use crate::rules::{Adding, Kind, Rule, Rules};
use crate::{Error, Policy, PolicyFault};
use std::collections::{BTreeMap, BTreeSet};
use std::sync::Arc;

/// Makes a policy of elements, attributes and schemes, as ammonia's `Builder` does. It begins with none.
///
/// Each name is one name, as it stands: nothing in it is read as a rule. What no policy takes is [`Error::BadRule`].
///
/// By default, a link that is kept gets `rel="noopener noreferrer"`, and the kept part of a page is made to fit, so
/// that a browser builds it with the nesting of its tags: by `tree` where each element has a place in the tree, else by
/// `balance`.
///
/// ```
/// use firnuubal::PolicyBuilder;
///
/// let mut builder = PolicyBuilder::new();
/// builder.tags(["p", "a"]).tag_attributes("a", ["href"]).url_schemes(["https"]).link_rel(None);
/// let policy = builder.build()?;
/// assert_eq!(policy.clean("<p id=x><a href='https://h/'>1"), r#"<p><a href="https://h/">1</a></p>"#);
/// # Ok::<(), firnuubal::Error>(())
/// ```
#[derive(Clone, Debug, PartialEq, Eq)]
pub struct PolicyBuilder {
    tags: BTreeMap<String, BTreeSet<String>>,
    generic_attributes: BTreeSet<String>,
    url_schemes: BTreeSet<String>,
    clean_content_tags: BTreeSet<String>,
    link_rel: Option<String>,
    balance: Option<bool>,
    tree: Option<bool>,
    depth: Option<u32>,
}

impl Default for PolicyBuilder {
    fn default() -> PolicyBuilder {
        PolicyBuilder {
            tags: BTreeMap::new(),
            generic_attributes: BTreeSet::new(),
            url_schemes: BTreeSet::new(),
            clean_content_tags: BTreeSet::new(),
            link_rel: Some(String::from("noopener noreferrer")),
            balance: None,
            tree: None,
            depth: None,
        }
    }
}

fn strings<'w>(words: impl IntoIterator<Item = &'w str>) -> impl Iterator<Item = String> {
    words.into_iter().map(String::from).collect::<Vec<_>>().into_iter()
}

impl PolicyBuilder {
    /// A policy that keeps text alone.
    pub fn new() -> PolicyBuilder {
        PolicyBuilder::default()
    }

    /// Keeps these elements, too.
    pub fn tags<'w>(&mut self, names: impl IntoIterator<Item = &'w str>) -> &mut PolicyBuilder {
        for name in strings(names) {
            self.tags.entry(name).or_default();
        }
        self
    }

    /// Keeps an element, and these attributes of it.
    pub fn tag_attributes<'w>(&mut self, tag: &str, names: impl IntoIterator<Item = &'w str>) -> &mut PolicyBuilder {
        self.tags.entry(String::from(tag)).or_default().extend(strings(names));
        self
    }

    /// Keeps these attributes in each element.
    pub fn generic_attributes<'w>(&mut self, names: impl IntoIterator<Item = &'w str>) -> &mut PolicyBuilder {
        self.generic_attributes.extend(strings(names));
        self
    }

    /// Keeps addresses of these schemes, beside relative ones.
    pub fn url_schemes<'w>(&mut self, names: impl IntoIterator<Item = &'w str>) -> &mut PolicyBuilder {
        self.url_schemes.extend(strings(names));
        self
    }

    /// Drops these elements with their content.
    pub fn clean_content_tags<'w>(&mut self, names: impl IntoIterator<Item = &'w str>) -> &mut PolicyBuilder {
        self.clean_content_tags.extend(strings(names));
        self
    }

    /// The `rel` that a link gets which is kept with an address, in place of the page's own: some words, as `nofollow ugc`. With
    /// `None` it gets none. The default is `noopener noreferrer`.
    pub fn link_rel(&mut self, words: Option<&str>) -> &mut PolicyBuilder {
        self.link_rel = words.map(String::from);
        self
    }

    /// Whether a link that is kept gets `rel="noopener"`.
    #[deprecated(since = "0.19.0", note = "say `link_rel(Some(\"noopener\"))` or `link_rel(None)`")]
    pub fn noopener(&mut self, is_added: bool) -> &mut PolicyBuilder {
        self.link_rel(is_added.then_some("noopener"))
    }

    /// Whether each end tag closes what was opened inside its element, and the page's end what is still open. The
    /// default is `true` where the rule `tree` can't be. With `false` the rule `tree` has to be, unless that is `false`, too.
    pub fn balance(&mut self, balances: bool) -> &mut PolicyBuilder {
        self.balance = Some(balances);
        self
    }

    /// Whether the page is made to fit, so that a browser builds it with the nesting of its tags. With `true` an element
    /// that has no place in the tree is refused. The default is `true` where each has one.
    pub fn tree(&mut self, is_made: bool) -> &mut PolicyBuilder {
        self.tree = Some(is_made);
        self
    }

    /// How many elements may be open in such a page: 1 to 4096, in place of 256. If no tree is made, it is refused.
    pub fn depth(&mut self, depth: u32) -> &mut PolicyBuilder {
        self.depth = Some(depth);
        self
    }

    /// The policy, or which of its rules no policy takes.
    pub fn build(&self) -> Result<Policy, Error> {
        let mut made = Making { adding: Adding::new()?, rules: Vec::new() };
        // Then what is refused is the element that has no place.
        if self.tree == Some(true) {
            made.add("tree", Kind::Tree, "")?;
        }
        self.add_names(&mut made)?;
        self.add_fitting(&mut made)?;
        made.adding.begin()?;
        Ok(Policy { rules: Arc::new(Rules::Each(made.rules)) })
    }

    fn add_names(&self, made: &mut Making) -> Result<(), Error> {
        for (tag, attributes) in &self.tags {
            made.add(if attributes.is_empty() { "tags" } else { "tag_attributes" }, Kind::Allow, tag)?;
            for attribute in attributes {
                made.add_attribute(tag, attribute)?;
            }
        }
        made.add_each("generic_attributes", Kind::Everywhere, self.generic_attributes.iter().map(String::as_str))?;
        made.add_each("url_schemes", Kind::Scheme, self.url_schemes.iter().map(String::as_str))?;
        made.add_each("clean_content_tags", Kind::Hide, self.clean_content_tags.iter().map(String::as_str))?;
        made.add_each("link_rel", Kind::Rel, self.link_rel.iter().flat_map(|words| words.split_ascii_whitespace()))
    }

    // How pages are made to fit. The rule `tree` is the last where it may be refused, so that each element is known.
    fn add_fitting(&self, made: &mut Making) -> Result<(), Error> {
        let fits = match (self.tree, self.balance) {
            (Some(is_made), _) => is_made,
            (None, Some(false)) => made.add("tree", Kind::Tree, "").map(|()| true)?,
            (None, _) => made.tries_tree()?,
        };
        if let Some(depth) = self.depth {
            let word = depth.to_string();
            made.add("depth", Kind::Depth, &word)?;
            if !fits {
                return Err(Error::BadRule { method: "depth", word, fault: PolicyFault::DepthWithoutTree });
            }
        }
        if self.balance.unwrap_or(!fits) {
            made.add("balance", Kind::Balance, "")?;
        }
        Ok(())
    }
}

// A policy that is made, and the rules that it has taken.
struct Making {
    adding: Adding,
    rules: Vec<Rule>,
}

impl Making {
    // Adds a rule, or answers what is wrong with it.
    fn push(&mut self, rule: Rule) -> Result<Result<(), (Rule, PolicyFault)>, Error> {
        if let Err(fault) = self.adding.add(&rule)? {
            return Ok(Err((rule, fault)));
        }
        self.rules.push(rule);
        Ok(Ok(()))
    }

    fn add(&mut self, method: &'static str, kind: Kind, name: &str) -> Result<(), Error> {
        let rule = Rule { kind, name: String::from(name), attribute: String::new() };
        self.push(rule)?.map_err(|(rule, fault)| Error::BadRule { method, word: rule.name, fault })
    }

    fn add_attribute(&mut self, tag: &str, attribute: &str) -> Result<(), Error> {
        let rule = Rule { kind: Kind::Attribute, name: String::from(tag), attribute: String::from(attribute) };
        let refused =
            |(rule, fault): (Rule, _)| Error::BadRule { method: "tag_attributes", word: rule.attribute, fault };
        self.push(rule)?.map_err(refused)
    }

    fn add_each<'n>(
        &mut self,
        method: &'static str,
        kind: Kind,
        names: impl Iterator<Item = &'n str>,
    ) -> Result<(), Error> {
        for name in names {
            self.add(method, kind, name)?;
        }
        Ok(())
    }

    // Adds the rule `tree`, if it takes the elements that there are. It answers whether it does.
    fn tries_tree(&mut self) -> Result<bool, Error> {
        let rule = Rule { kind: Kind::Tree, name: String::new(), attribute: String::new() };
        Ok(self.push(rule)?.is_ok())
    }
}
