//! Pages in pieces, policies in turn, refusals.

use firnuubal::{clean, Cleaner, Encoding, Error, Options, OwnedToken, Policy, PolicyBuilder, Tokenizer};

const PAGE: &str = "<p onclick=x>1 &lt; 2<script>x</script><a href=javascript:x>y</a>é";
const KEPT: &str = "<p>1 &#60; 2<a>y</a>é</p>";

#[test]
fn a_page_in_pieces() -> Result<(), Error> {
    let mut cleaner = Cleaner::new(&Policy::default())?;
    for size in 1..=PAGE.len() {
        let mut kept = String::new();
        for piece in PAGE.as_bytes().chunks(size) {
            cleaner.feed(piece)?;
            kept += &cleaner.take();
        }
        cleaner.end()?;
        assert_eq!(kept + &cleaner.take(), KEPT);
        cleaner.restart()?;
    }
    Ok(())
}

#[test]
fn a_page_from_a_stream() {
    let mut kept = Vec::new();
    Policy::default().clean_stream(PAGE.as_bytes(), &mut kept).unwrap();
    assert_eq!(kept, KEPT.as_bytes());
}

#[test]
fn policies_in_turn() {
    // More than are kept, also after pages that are refused.
    let names = ["p", "b", "i", "u", "q", "s"];
    let policies = names.map(|name| PolicyBuilder::new().tags([name]).build());
    for _ in 0..3 {
        for (name, policy) in names.iter().zip(&policies) {
            let policy = policy.as_ref().unwrap();
            assert_eq!(policy.clean("<p><b><i><u><q><s>1 <"), format!("<{name}>1 &#60;</{name}>"));
            assert!(policy.clean_bytes(b"<p><!--\xFF", Encoding::StrictUtf8).is_err());
            let mut kept = Vec::new();
            policy.clean_stream(&b"<s><q><u><i><b><p>2"[..], &mut kept).unwrap();
            assert_eq!(kept, format!("<{name}>2</{name}>").into_bytes());
        }
    }
}

#[test]
fn refusals() -> Result<(), Error> {
    let mut cleaner = Cleaner::new(&Policy::default())?;
    cleaner.feed(b"<p>ab")?;
    assert_eq!(cleaner.feed(b"c\xFF"), Err(Error::NotUtf8 { at: 6 }));
    cleaner.feed(&[0xC3])?;
    assert_eq!(cleaner.end(), Err(Error::Cut));
    assert_eq!(cleaner.take(), "<p>");
    cleaner.restart()?;
    cleaner.set_limit(4)?;
    assert_eq!(cleaner.feed(b"<p>ab"), Err(Error::Limit));
    cleaner.end()?;
    assert_eq!(cleaner.feed(b"x"), Err(Error::Over));
    Ok(())
}

#[test]
fn cleaners_in_two_hundred_threads() {
    let threads: Vec<_> = (0..200).map(|_| std::thread::spawn(|| clean(PAGE))).collect();
    for thread in threads {
        assert_eq!(thread.join().unwrap(), KEPT);
    }
}

#[test]
fn tokens_that_own_their_texts() -> Result<(), Error> {
    let mut tokenizer = Tokenizer::new(&Options::default())?;
    tokenizer.feed(b"<a href=x title=y>1")?;
    let tokens: Vec<OwnedToken> = tokenizer.tokens().map(OwnedToken::from).collect();
    tokenizer.end()?;
    let OwnedToken::StartTag(tag) = &tokens[0] else {
        panic!("{tokens:?}");
    };
    assert_eq!(tag.attributes, [("href".into(), "x".into()), ("title".into(), "y".into())]);
    Ok(())
}
