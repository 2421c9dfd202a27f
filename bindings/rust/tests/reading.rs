//! Pages from readers: that are interrupted, that hold bytes which are not UTF-8, that are many pieces.

use firnuubal::{
    links, read_links, read_text, read_tokens, text, Cleaner, Encoding, Error, Options, OwnedToken, Policy, Tokenizer,
};
use std::io::{self, Read};

// A page in pieces of three bytes, and before each piece a signal.
struct Interrupting<'p> {
    page: &'p [u8],
    was_interrupted: bool,
}

impl<'p> Interrupting<'p> {
    fn new(page: &'p [u8]) -> Interrupting<'p> {
        Interrupting { page, was_interrupted: false }
    }
}

impl Read for Interrupting<'_> {
    fn read(&mut self, out: &mut [u8]) -> io::Result<usize> {
        self.was_interrupted = !self.was_interrupted;
        if self.was_interrupted {
            return Err(io::ErrorKind::Interrupted.into());
        }
        let most = out.len().min(3);
        self.page.read(&mut out[..most])
    }
}

// A page, and then an error.
struct Failing<'p>(&'p [u8]);

impl Read for Failing<'_> {
    fn read(&mut self, out: &mut [u8]) -> io::Result<usize> {
        match self.0.read(out)? {
            0 => Err(io::ErrorKind::ConnectionReset.into()),
            len => Ok(len),
        }
    }
}

fn tokens(page: impl Read, encoding: Option<Encoding<'_>>) -> (Vec<OwnedToken>, io::Result<()>) {
    let mut found = Vec::new();
    let options = Options { encoding, ..Options::default() };
    let read = read_tokens(page, &options, |token| found.push(OwnedToken::from(token)));
    (found, read)
}

#[test]
fn interrupted_reads_are_done_again() -> io::Result<()> {
    const PAGE: &str = "<p onclick=x>1<a href=/x>2</a><script>3</script>";
    let page = || Interrupting::new(PAGE.as_bytes());
    let mut kept = Vec::new();
    Policy::default().clean_stream(page(), &mut kept)?;
    assert_eq!(String::from_utf8(kept).unwrap(), firnuubal::clean(PAGE));
    assert_eq!(read_text(page(), Encoding::Auto)?, text(PAGE));
    assert_eq!(read_links(page(), Encoding::Auto)?, links(PAGE).collect::<Vec<_>>());
    let (found, read) = tokens(page(), None);
    read?;
    assert_eq!(found, tokens(PAGE.as_bytes(), None).0);
    Ok(())
}

#[test]
fn other_errors_of_readers_are_handed_on() {
    let kind = io::ErrorKind::ConnectionReset;
    assert_eq!(Policy::default().clean_stream(Failing(b"<p>1"), Vec::new()).unwrap_err().kind(), kind);
    assert_eq!(read_text(Failing(b"<p>1"), Encoding::Auto).unwrap_err().kind(), kind);
    assert_eq!(tokens(Failing(b"<p>1"), None).1.unwrap_err().kind(), kind);
}

#[test]
fn tokens_before_bytes_that_are_refused_are_handed_on() {
    let (found, read) = tokens(&b"<p>one<b>\xff<i>"[..], Some(Encoding::StrictUtf8));
    let refused = read.unwrap_err();
    assert_eq!(refused.kind(), io::ErrorKind::InvalidData);
    assert_eq!(refused.to_string(), "invalid UTF-8 at byte 9");
    let names: Vec<_> = found
        .iter()
        .map(|token| match token {
            OwnedToken::StartTag(tag) => tag.name.as_str(),
            OwnedToken::Text(text) => text.as_str(),
            _ => "",
        })
        .filter(|name| !name.is_empty())
        .collect();
    assert_eq!(names, ["p", "one", "b"]);
}

// Bytes are read as the page says, a text is itself, and a `Tokenizer` and a `Cleaner` are strict.
#[test]
fn bytes_are_read_as_the_page_says() -> io::Result<()> {
    let page = b"<meta charset=windows-1252><p>caf\xe9";
    let mut kept = Vec::new();
    Policy::default().clean_stream(&page[..], &mut kept)?;
    assert_eq!(kept, "<p>café</p>".as_bytes());
    assert_eq!(Policy::default().clean_bytes(page, Encoding::default())?, "<p>café</p>");
    assert_eq!(read_text(&page[..], Encoding::default())?, "café");
    let (found, read) = tokens(&page[..], None);
    read?;
    assert!(found.contains(&OwnedToken::Text("café".into())));

    let page = "<meta charset=windows-1252><p>café";
    assert_eq!(firnuubal::clean(page), "<p>café</p>");
    assert_eq!(text(page), "café");
    Ok(())
}

#[test]
fn strict_utf8_stays() -> Result<(), Error> {
    let page = b"<meta charset=windows-1252><p>caf\xe9.";
    let refused = Err(Error::NotUtf8 { at: 33 });
    assert_eq!(Policy::default().clean_bytes(page, Encoding::StrictUtf8), refused);
    assert_eq!(Cleaner::new(&Policy::default())?.feed(page), Err(Error::NotUtf8 { at: 33 }));
    for encoding in [None, Some(Encoding::StrictUtf8)] {
        let mut tokenizer = Tokenizer::new(&Options { encoding, ..Options::default() })?;
        assert_eq!(tokenizer.feed(page), Err(Error::NotUtf8 { at: 33 }));
        assert_eq!(tokenizer.encoding(), None);
    }
    assert!(read_text(&page[..], Encoding::StrictUtf8).is_err());
    assert!(read_links(&page[..], Encoding::StrictUtf8).is_err());
    assert!(tokens(&page[..], Some(Encoding::StrictUtf8)).1.is_err());
    Ok(())
}

// A cleaner can't be strict after another encoding was set, which it keeps.
#[test]
fn a_cleaner_that_is_strict() -> Result<(), Error> {
    let mut cleaner = Cleaner::new(&Policy::default())?;
    cleaner.set_encoding(Encoding::StrictUtf8)?;
    assert_eq!(cleaner.feed(b"\xff"), Err(Error::NotUtf8 { at: 0 }));
    cleaner.restart()?;
    cleaner.set_encoding(Encoding::Auto)?;
    assert_eq!(cleaner.set_encoding(Encoding::StrictUtf8), Err(Error::Begun));
    Ok(())
}

// Pages of either kind one after another: a handle that is kept serves those of its kind alone.
#[test]
fn pages_of_both_kinds_in_turn() -> io::Result<()> {
    for _ in 0..3 {
        assert_eq!(read_text(&b"caf\xe9"[..], Encoding::Auto)?, "café");
        assert!(read_text(&b"caf\xe9"[..], Encoding::StrictUtf8).is_err());
        assert_eq!(Policy::default().clean_bytes(b"caf\xe9", Encoding::Auto)?, "café");
        assert!(Policy::default().clean_bytes(b"caf\xe9", Encoding::StrictUtf8).is_err());
        assert_eq!(read_text(&b"caf\xe9"[..], Encoding::Label("koi8-r"))?, "cafИ");
    }
    Ok(())
}

// With places a page is strict UTF-8, as it is cut by bytes.
#[test]
fn places_go_with_strict_utf8() -> Result<(), Error> {
    let options = Options { places: true, encoding: Some(Encoding::StrictUtf8), ..Options::default() };
    let mut tokenizer = Tokenizer::new(&options)?;
    tokenizer.feed("é<p>".as_bytes())?;
    tokenizer.end()?;
    let places: Vec<_> = tokenizer.placed_tokens().map(|(_, place)| place).collect();
    assert_eq!(places, [0..2, 2..5, 5..5]);
    let mut count = 0;
    read_tokens("é<p>".as_bytes(), &Options { places: true, ..Options::default() }, |_| count += 1).unwrap();
    assert_eq!(count, 3);
    Ok(())
}

// Many small pieces, of which one token is read each time: all come in the end, and none twice.
#[test]
fn twelve_thousand_small_feeds() -> Result<(), Error> {
    const FEEDS: usize = 12_000;
    let mut tokenizer = Tokenizer::new(&Options::default())?;
    let mut count = 0;
    for _ in 0..FEEDS {
        tokenizer.feed(b"<b>1</b><i>2</i>")?;
        count += tokenizer.tokens().take(1).count();
    }
    assert_eq!(count, FEEDS);
    tokenizer.end()?;
    count += tokenizer.tokens().count();
    assert_eq!(count, 6 * FEEDS + 1);

    let mut cleaner = Cleaner::new(&Policy::default())?;
    let mut pieces = Vec::new();
    for _ in 0..FEEDS {
        cleaner.feed(b"<b>1</b>")?;
        pieces.push(cleaner.take());
    }
    cleaner.end()?;
    pieces.push(cleaner.take());
    // Each piece holds little more than its bytes.
    assert!(pieces.iter().map(String::capacity).sum::<usize>() < 64 * FEEDS);
    assert_eq!(pieces.concat(), "<b>1</b>".repeat(FEEDS));
    Ok(())
}
