//! Pauses, refusals, texts that arrive in pieces.

use firnuubal::{Encoding, Error, Fed, Options, Replies, State, Token, Tokenizer};
use std::io;

fn shown(tokenizer: &mut Tokenizer) -> String {
    let mut shown = String::new();
    for token in tokenizer.tokens() {
        shown += &match token {
            Token::StartTag(tag) => format!("<{}>", tag.name),
            Token::EndTag(tag) => format!("</{}>", tag.name),
            Token::Text(text) => format!("[{text}]"),
            Token::End { line } => format!("end {line}"),
            other => format!("{other:?}"),
        };
    }
    shown
}

#[test]
fn a_page_in_pieces() -> Result<(), Error> {
    let page = "<p CLASS=é>1 &lt; 2".as_bytes();
    for size in 1..=page.len() {
        let mut tokenizer = Tokenizer::new(&Options::default())?;
        let mut all = String::new();
        for piece in page.chunks(size) {
            assert_eq!(tokenizer.feed(piece)?, Fed::Done);
            all += &shown(&mut tokenizer);
        }
        tokenizer.end()?;
        assert_eq!(all + &shown(&mut tokenizer), "<p>[1 < 2]end 1");
    }
    Ok(())
}

#[test]
fn nothing_of_a_page_is_left_to_the_next() -> Result<(), Error> {
    // Each page leaves something open: a limit, options, a state, a tag, tokens that were not read, text that waits.
    let plain = Options::default();
    let label = Some(Encoding::Label("shift_jis"));
    let pages: [(Options<'_>, &[u8]); 7] = [
        (Options { limit: Some(40), ..plain }, b"<p a"),
        (Options { exact_errors: true, keep_bom: true, ..plain }, "\u{feff}1\u{1}".as_bytes()),
        (Options { replies: Replies::Caller, ..plain }, b"<style>"),
        (Options { replies: Replies::Pausing, ..plain }, b"<script></script><b>"),
        (Options { state: State::Rcdata, last_start_tag: "title", foreign: true, ..plain }, b"<b></title>&lt"),
        (Options { encoding: label, ..plain }, b"\x93"),
        (Options { places: true, ..plain }, b"<p>1"),
    ];
    let spaces = " ".repeat(50);
    for (options, page) in pages.iter().chain(&pages) {
        Tokenizer::new(options)?.feed(page)?;
        let mut tokenizer = Tokenizer::new(&plain)?;
        assert!(!tokenizer.is_over());
        assert_eq!(tokenizer.feed(format!("\u{feff}<p>1 &lt; 2{spaces}").as_bytes())?, Fed::Done);
        assert_eq!(tokenizer.end()?, Fed::Done);
        assert_eq!(tokenizer.encoding(), None);
        assert_eq!(shown(&mut tokenizer), format!("<p>[1 < 2{spaces}]end 1"), "after {options:?}");
    }
    Ok(())
}

#[test]
fn pages_within_pages() -> io::Result<()> {
    // More than are kept.
    fn inner(depth: usize) -> io::Result<String> {
        let mut names = String::new();
        let mut within = Ok(String::new());
        firnuubal::read_tokens(format!("<p{depth}>").as_bytes(), &Options::default(), |token| {
            if let Token::StartTag(tag) = token {
                names += tag.name;
                within = if depth == 0 { Ok(String::new()) } else { inner(depth - 1) };
            }
        })?;
        Ok(names + &within?)
    }
    assert_eq!(inner(6)?, "p6p5p4p3p2p1p0");
    Ok(())
}

// The codes that the standard has for a page's errors.
fn codes(page: &str) -> Result<Vec<Option<String>>, Error> {
    let mut tokenizer = Tokenizer::new(&Options::default())?;
    tokenizer.feed(page.as_bytes())?;
    tokenizer.end()?;
    let mut codes = Vec::new();
    for token in tokenizer.tokens() {
        if let Token::ParseError { message, .. } = token {
            codes.push(firnuubal::error_code(message));
        }
    }
    Ok(codes)
}

#[test]
fn errors_have_the_codes_of_the_standard() -> Result<(), Error> {
    let rows = [
        ("<p a=>", Some("missing-attribute-value")),
        ("<p a a>", Some("duplicate-attribute")),
        ("<!--", Some("eof-in-comment")),
        ("&nosuch;", Some("unknown-named-character-reference")),
        ("&#0;", None),
    ];
    for (page, code) in rows {
        assert_eq!(codes(page)?, [code.map(String::from)], "of {page}");
    }
    assert_eq!(firnuubal::error_code(""), None);
    Ok(())
}

#[test]
fn text_is_put_in_after_a_script() -> Result<(), Error> {
    let options = Options { replies: Replies::Pausing, ..Options::default() };
    let mut tokenizer = Tokenizer::new(&options)?;
    assert_eq!(tokenizer.feed(b"<script>x</script>c")?, Fed::Script);
    assert_eq!(shown(&mut tokenizer), "<script>[x]</script>");
    assert_eq!(tokenizer.end(), Err(Error::Waiting));
    tokenizer.insert("a<b>")?;
    assert_eq!(tokenizer.feed(b"d")?, Fed::Done);
    tokenizer.end()?;
    assert_eq!(shown(&mut tokenizer), "[a]<b>[cd]end 1");
    Ok(())
}

#[test]
fn refusals() -> Result<(), Error> {
    let mut tokenizer = Tokenizer::new(&Options::default())?;
    tokenizer.feed(b"<p>ab")?;
    assert_eq!(tokenizer.feed(b"c\xFF"), Err(Error::NotUtf8 { at: 6 }));
    tokenizer.end()?;
    assert_eq!(shown(&mut tokenizer), "<p>[abc]end 1");
    let mut tokenizer = Tokenizer::new(&Options::default())?;
    tokenizer.feed(&[0xC3])?;
    assert_eq!(tokenizer.end(), Err(Error::Cut));
    let mut tokenizer = Tokenizer::new(&Options::default())?;
    assert!(!tokenizer.is_over());
    tokenizer.end()?;
    assert!(tokenizer.is_over());
    assert_eq!(tokenizer.feed(b"x"), Err(Error::Over));
    Ok(())
}

#[test]
fn a_limit() -> Result<(), Error> {
    let mut tokenizer = Tokenizer::new(&Options { limit: Some(10), ..Options::default() })?;
    tokenizer.feed(b"<a href=ab")?;
    assert_eq!(tokenizer.feed(b">"), Err(Error::Limit));
    assert!(!tokenizer.is_over());
    Ok(())
}

#[test]
fn raw_text_from_the_start_in_another_thread() -> Result<(), Error> {
    let options = Options { state: State::Rcdata, last_start_tag: "title", ..Options::default() };
    let mut tokenizer = Tokenizer::new(&options)?;
    let shown = std::thread::spawn(move || tokenizer.feed(b"<b>&amp;</title>").map(|_| shown(&mut tokenizer)));
    assert_eq!(shown.join().expect("it ends"), Ok("[<b>&]</title>".to_string()));
    Ok(())
}

// The text at the places of a page's tokens, by hand.
const PLACED: (&str, &[&str]) = (
    "é<p CLASS = x>1 &lt; 2\r\n<!--x--></p >&amp",
    &["é", "<p CLASS = x>", "1 &lt; 2\r\n", "<!--x-->", "</p >", "&amp", ""],
);

#[test]
fn each_token_has_its_place() -> Result<(), Error> {
    let (page, due) = PLACED;
    let options = Options { places: true, ..Options::default() };
    for size in 1..=page.len() {
        let mut tokenizer = Tokenizer::new(&options)?;
        let mut found = Vec::new();
        for piece in page.as_bytes().chunks(size) {
            tokenizer.feed(piece)?;
            found.extend(tokenizer.placed_tokens().filter(|it| !is_error(&it.0)).map(|(_, place)| &page[place]));
        }
        tokenizer.end()?;
        found.extend(tokenizer.placed_tokens().filter(|it| !is_error(&it.0)).map(|(_, place)| &page[place]));
        assert_eq!(found, due);
    }
    Ok(())
}

fn is_error(token: &Token<'_>) -> bool {
    matches!(token, Token::ParseError { .. })
}

#[test]
fn an_error_stands_at_its_character() -> Result<(), Error> {
    let mut tokenizer = Tokenizer::new(&Options { places: true, ..Options::default() })?;
    tokenizer.feed(b"1 < 2")?;
    tokenizer.end()?;
    let places: Vec<_> = tokenizer.placed_tokens().map(|(token, place)| (is_error(&token), place)).collect();
    assert_eq!(places, [(true, 3..4), (false, 0..5), (false, 5..5)]);
    Ok(())
}

#[test]
fn places_go_with_few_options() -> Result<(), Error> {
    let places = Options { places: true, ..Options::default() };
    for options in [
        Options { replies: Replies::Pausing, ..places },
        Options { foreign: true, ..places },
        Options { encoding: Some(Encoding::Auto), ..places },
    ] {
        assert_eq!(Tokenizer::new(&options).unwrap_err(), Error::NoPlaces);
    }
    let mut tokenizer = Tokenizer::new(&places)?;
    assert_eq!(tokenizer.insert("x"), Err(Error::Over));
    tokenizer.feed(b"<b>x")?;
    tokenizer.end()?;
    assert_eq!(shown(&mut tokenizer), "<b>[x]end 1");
    Ok(())
}
