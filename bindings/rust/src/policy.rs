//! What a policy keeps of a page.

use crate::pages::read_piece;
use crate::rules::Rules;
use crate::spares::{self, Said};
use crate::{Cleaner, Encoding, Error};
use std::io::{self, Read, Write};
use std::sync::Arc;

/// What a policy keeps of a page: rules, which were tried.
///
/// `Policy::parse` takes the text form (crates/html5policy/README.md), `PolicyBuilder` elements, attributes and schemes
/// one by one. `Policy::default` is the standard policy, which has the rule `tree`.
///
/// `Policy::clean`, `Policy::clean_bytes` and `Policy::clean_stream` keep a cleaner for the thread's next page by the same
/// policy: to make one takes most of a millisecond. Those of the last four policies are kept.
#[derive(Clone, Debug, Default, PartialEq, Eq)]
pub struct Policy {
    pub(crate) rules: Arc<Rules>,
}

impl Policy {
    /// The policy of these rules, a line each. A rule that no policy takes is [`Error::BadPolicy`].
    pub fn parse(rules: &str) -> Result<Policy, Error> {
        // No text would be the standard policy.
        let text = if rules.is_empty() { String::from("\n") } else { String::from(rules) };
        let rules = Rules::Text(text);
        rules.open()?;
        Ok(Policy { rules: Arc::new(rules) })
    }

    /// What the policy keeps of a page.
    pub fn clean(&self, page: &str) -> String {
        self.clean_bytes(page.as_bytes(), Encoding::StrictUtf8).expect("memory for a cleaned page")
    }

    /// What the policy keeps of a page in this encoding.
    ///
    /// ```
    /// use firnuubal::{Encoding, Policy};
    ///
    /// let page = b"<p onclick=x>caf\xe9";
    /// assert_eq!(Policy::default().clean_bytes(page, Encoding::Auto)?, "<p>café</p>");
    /// # Ok::<(), firnuubal::Error>(())
    /// ```
    pub fn clean_bytes(&self, page: &[u8], encoding: Encoding<'_>) -> Result<String, Error> {
        let mut cleaner = self.cleaner(encoding)?;
        cleaner.feed(page)?;
        cleaner.end()?;
        let kept = cleaner.take();
        self.keep(cleaner, encoding);
        Ok(kept)
    }

    /// Writes what the policy keeps of a page, as its bytes arrive. They are read as the page says ([`Encoding::Auto`]); a
    /// [`Cleaner`] takes another encoding.
    pub fn clean_stream(&self, mut page: impl Read, mut kept: impl Write) -> io::Result<()> {
        let mut cleaner = self.cleaner(Encoding::Auto)?;
        let mut piece = vec![0; 1 << 16];
        loop {
            let len = read_piece(&mut page, &mut piece)?;
            if len == 0 {
                break;
            }
            cleaner.feed(&piece[..len])?;
            kept.write_all(cleaner.take().as_bytes())?;
        }
        cleaner.end()?;
        kept.write_all(cleaner.take().as_bytes())?;
        self.keep(cleaner, Encoding::Auto);
        Ok(())
    }

    // A cleaner by this policy at the start of a page: one that was kept, where there is one.
    fn cleaner(&self, encoding: Encoding<'_>) -> Result<Cleaner, Error> {
        if let Some(said) = Said::of(Some(encoding), false) {
            let handle = spares::cleaner(&self.rules, said);
            if handle.is_open() {
                return Ok(Cleaner::of_handle(handle));
            }
        }
        let mut cleaner = Cleaner::new(self)?;
        cleaner.set_encoding(encoding)?;
        Ok(cleaner)
    }

    // Keeps a cleaner for another page.
    fn keep(&self, cleaner: Cleaner, encoding: Encoding<'_>) {
        if let Some(said) = Said::of(Some(encoding), false) {
            spares::keep_cleaner(&self.rules, said, cleaner.into_handle());
        }
    }
}

/// What the standard policy keeps of a page: text, its blocks, lists and tables, links and images. It is made to fit, so
/// that a browser builds it as its tags are nested.
///
/// ```
/// assert_eq!(firnuubal::clean("<p onclick=x>1 <a href=javascript:x>2</a>"), "<p>1 <a>2</a></p>");
/// ```
pub fn clean(page: &str) -> String {
    Policy::default().clean(page)
}
