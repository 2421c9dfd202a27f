//! What is read of whole pages.

use crate::{Encoding, Fed, Options, Token, Tokenizer};
use std::io::{self, Read};

/// Reads a page as its bytes arrive, past all pauses, and hands each token on. Where the options have no encoding, bytes are read
/// as the page says ([`Encoding::Auto`]), but with places. Tokens before bytes that are refused are handed on before the error.
pub fn read_tokens(mut page: impl Read, options: &Options<'_>, mut take: impl FnMut(Token<'_>)) -> io::Result<()> {
    let as_the_page_says = (!options.places).then_some(Encoding::Auto);
    let options = Options { encoding: options.encoding.or(as_the_page_says), ..*options };
    let mut tokenizer = Tokenizer::new(&options)?;
    let mut piece = vec![0; 1 << 16];
    loop {
        let len = read_piece(&mut page, &mut piece)?;
        if len == 0 {
            break;
        }
        let fed = tokenizer.feed_all(&piece[..len]);
        tokenizer.tokens().for_each(&mut take);
        fed?;
    }
    while tokenizer.end()? != Fed::Done {}
    tokenizer.tokens().for_each(take);
    Ok(())
}

/// The next bytes of a page, and how many. A read that a signal interrupted is done again.
pub(crate) fn read_piece(page: &mut impl Read, piece: &mut [u8]) -> io::Result<usize> {
    loop {
        match page.read(piece) {
            Err(error) if error.kind() == io::ErrorKind::Interrupted => {}
            read => return read,
        }
    }
}

/// A link of a page.
#[derive(Clone, Debug, PartialEq, Eq)]
pub struct Link {
    /// The line on which its tag ends.
    pub line: u64,
    /// What is written there.
    pub address: String,
}

fn link_attribute(element: &str) -> Option<&'static str> {
    match element {
        "a" | "area" | "link" => Some("href"),
        "img" | "script" | "iframe" => Some("src"),
        _ => None,
    }
}

fn link_of(token: Token<'_>) -> Option<Link> {
    let Token::StartTag(tag) = token else {
        return None;
    };
    let address = tag.get(link_attribute(tag.name)?)?;
    Some(Link { line: tag.line, address: String::from(address) })
}

/// The links of a page: `href` of a, area and link, `src` of img, script and iframe.
///
/// ```
/// let links: Vec<_> = firnuubal::links("<p>1<a href=/x>2</a>").collect();
/// assert_eq!((links[0].line, links[0].address.as_str()), (1, "/x"));
/// ```
pub fn links(page: &str) -> impl Iterator<Item = Link> {
    read_links(page.as_bytes(), Encoding::StrictUtf8).expect("memory for the tokens of a page").into_iter()
}

/// The links of a page in this encoding, as [`links`] has them.
///
/// ```
/// use firnuubal::{read_links, Encoding};
///
/// assert_eq!(read_links(&b"<a href=/caf\xe9>"[..], Encoding::Auto)?[0].address, "/café");
/// # Ok::<(), std::io::Error>(())
/// ```
pub fn read_links(page: impl Read, encoding: Encoding<'_>) -> io::Result<Vec<Link>> {
    let mut found = Vec::new();
    read_tokens(page, &in_encoding(encoding), |token| found.extend(link_of(token)))?;
    Ok(found)
}

/// The text of a page, without its scripts and styles.
///
/// ```
/// assert_eq!(firnuubal::text("<p>1 &lt; 2<script>3</script>"), "1 < 2");
/// ```
pub fn text(page: &str) -> String {
    read_text(page.as_bytes(), Encoding::StrictUtf8).expect("memory for the tokens of a page")
}

/// The text of a page in this encoding, as [`text`] has it.
pub fn read_text(page: impl Read, encoding: Encoding<'_>) -> io::Result<String> {
    let mut found = String::new();
    let mut is_within = false;
    read_tokens(page, &in_encoding(encoding), |token| match token {
        Token::StartTag(tag) => is_within = matches!(tag.name, "script" | "style"),
        Token::EndTag(_) => is_within = false,
        Token::Text(run) if !is_within => found.push_str(run),
        _ => {}
    })?;
    Ok(found)
}

fn in_encoding(encoding: Encoding<'_>) -> Options<'_> {
    Options { encoding: Some(encoding), ..Options::default() }
}
