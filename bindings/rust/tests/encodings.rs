//! Pages in any encoding: those that are said, those that pages tell, pieces, refusals.

use firnuubal::{
    clean, read_tokens, Cleaner, Encoding, Error, Fed, Options, OwnedToken, Policy, Replies, SinkTokenizer, Token,
    TokenSink, TokenSinkResult, Tokenizer, TokenizerResult,
};

// Pages, what is said of each, the name of its encoding, and its text.
const PAGES: [(&[u8], Encoding<'static>, &str, &str); 9] = [
    (b"<p>\x93\xfa\x96{", Encoding::Label("Shift_JIS"), "Shift_JIS", "<p>日本"),
    (b"<meta charset=sjis>\x93\xfa", Encoding::Auto, "Shift_JIS", "<meta charset=sjis>日"),
    (b"caf\xe9 \x80", Encoding::Auto, "windows-1252", "café €"),
    (b"caf\xe9 \x80", Encoding::Label("latin1"), "windows-1252", "café €"),
    (b"caf\xc3\xa9", Encoding::Auto, "UTF-8", "café"),
    (b"caf\xc3", Encoding::Label("utf-8"), "UTF-8", "caf\u{fffd}"),
    (b"\xef\xbb\xbfcaf\xc3\xa9", Encoding::Label("koi8-r"), "UTF-8", "café"),
    (b"\xff\xfe<\0b\0>\0\xe9\0", Encoding::Auto, "UTF-16LE", "<b>é"),
    (b"", Encoding::Auto, "UTF-8", ""),
];

fn tokens(page: &[u8], encoding: Encoding<'_>) -> Vec<OwnedToken> {
    let mut found = Vec::new();
    let options = Options { encoding: Some(encoding), ..Options::default() };
    read_tokens(page, &options, |token| found.push(OwnedToken::from(token))).unwrap();
    found
}

#[test]
fn pages_in_pieces() -> Result<(), Error> {
    for (page, encoding, name, text) in PAGES {
        for size in 1..=page.len().max(1) {
            let mut tokenizer = Tokenizer::new(&Options { encoding: Some(encoding), ..Options::default() })?;
            let mut found = Vec::new();
            for piece in page.chunks(size) {
                assert_eq!(tokenizer.feed(piece)?, Fed::Done);
                found.extend(tokenizer.tokens().map(OwnedToken::from));
            }
            assert_eq!(tokenizer.end()?, Fed::Done);
            found.extend(tokenizer.tokens().map(OwnedToken::from));
            assert_eq!(found, tokens(text.as_bytes(), Encoding::StrictUtf8), "{page:?}");
            assert_eq!(tokenizer.encoding().as_deref(), Some(name));
        }
    }
    Ok(())
}

#[test]
fn whole_pages() -> Result<(), Error> {
    for (page, encoding, _, text) in PAGES {
        assert_eq!(tokens(page, encoding), tokens(text.as_bytes(), Encoding::StrictUtf8));
        assert_eq!(Policy::default().clean_bytes(page, encoding)?, clean(text));
    }
    Ok(())
}

#[test]
fn a_cleaner_keeps_what_was_set() -> Result<(), Error> {
    let mut cleaner = Cleaner::new(&Policy::default())?;
    cleaner.set_encoding(Encoding::Auto)?;
    for (page, name, kept) in [
        (&b"<b>\xe9"[..], "windows-1252", "<b>é</b>"),
        ("<b>é".as_bytes(), "UTF-8", "<b>é</b>"),
        (b"<meta charset=koi8-r>\xc1", "KOI8-R", "а"),
    ] {
        assert_eq!(cleaner.encoding(), None);
        cleaner.feed(page)?;
        assert_eq!(cleaner.set_encoding(Encoding::Auto), Err(Error::Begun));
        cleaner.end()?;
        assert_eq!(cleaner.encoding().as_deref(), Some(name));
        assert_eq!(cleaner.take(), kept);
        cleaner.restart()?;
    }
    Ok(())
}

#[test]
fn unknown_labels() -> Result<(), Error> {
    for label in ["", " ", "no-such", "utf-7", "shift\0jis"] {
        let encoding = Encoding::Label(label);
        let options = Options { encoding: Some(encoding), ..Options::default() };
        assert_eq!(Tokenizer::new(&options).err(), Some(Error::UnknownEncoding), "{label:?}");
        assert_eq!(Policy::default().clean_bytes(b"x", encoding), Err(Error::UnknownEncoding));
    }
    let mut cleaner = Cleaner::new(&Policy::default())?;
    cleaner.end()?;
    assert_eq!(cleaner.set_encoding(Encoding::Auto), Err(Error::Over));
    Ok(())
}

#[test]
fn a_pause_at_the_end() -> Result<(), Error> {
    let options = Options { replies: Replies::Pausing, encoding: Some(Encoding::Auto), ..Options::default() };
    let mut tokenizer = Tokenizer::new(&options)?;
    assert_eq!(tokenizer.feed(b"<script>1</script>caf\xe9")?, Fed::Done);
    assert_eq!(tokenizer.end()?, Fed::Script);
    tokenizer.insert("é ")?;
    assert_eq!(tokenizer.end()?, Fed::Done);
    let texts: Vec<_> = tokenizer.tokens().map(OwnedToken::from).filter(|t| matches!(t, OwnedToken::Text(_))).collect();
    assert_eq!(texts, [OwnedToken::Text("1".into()), OwnedToken::Text("é café".into())]);
    Ok(())
}

#[derive(Default)]
struct Sink {
    texts: String,
    has_ended: bool,
}

impl TokenSink for Sink {
    type Handle = ();

    fn process_token(&mut self, token: Token<'_>, _: u64) -> TokenSinkResult<()> {
        match token {
            Token::EndTag(tag) if tag.name == "script" => return TokenSinkResult::Script(()),
            Token::Text(text) => self.texts.push_str(text),
            _ => {}
        }
        TokenSinkResult::Continue
    }

    fn end(&mut self) {
        self.has_ended = true;
    }
}

#[test]
fn a_sink_that_pauses_at_the_end() -> Result<(), Error> {
    let options = Options { encoding: Some(Encoding::Auto), ..Options::default() };
    let mut tokenizer = SinkTokenizer::new(Sink::default(), &options)?;
    tokenizer.feed(b"1<b>2</script>\xe9")?;
    assert!(matches!(tokenizer.end()?, TokenizerResult::Script(())));
    assert!(!tokenizer.sink.has_ended);
    assert!(matches!(tokenizer.end()?, TokenizerResult::Done));
    assert!(tokenizer.sink.has_ended);
    assert_eq!(tokenizer.sink.texts, "12é");
    Ok(())
}
