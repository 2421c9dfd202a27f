//! A sink that steers the tokenizer.

use firnuubal::{Error, Options, RawKind, SinkTokenizer, Token, TokenSink, TokenSinkResult, TokenizerResult};

/// Shows tokens, replies as the standard's elements ask, and knows whether it is in `svg`.
#[derive(Default)]
struct Shown {
    text: String,
    depth: u32,
}

impl TokenSink for Shown {
    type Handle = u64;

    fn process_token(&mut self, token: Token<'_>, line_number: u64) -> TokenSinkResult<u64> {
        match token {
            Token::StartTag(tag) => {
                self.text += &format!("<{}>", tag.name);
                match tag.name {
                    "svg" => self.depth += 1,
                    "title" => return TokenSinkResult::RawData(RawKind::Rcdata),
                    "plaintext" => return TokenSinkResult::Plaintext,
                    "meta" => return TokenSinkResult::EncodingIndicator(tag.get("charset").unwrap_or("").to_owned()),
                    _ => {}
                }
            }
            Token::EndTag(tag) => {
                self.text += &format!("</{}>", tag.name);
                match tag.name {
                    "svg" => self.depth -= 1,
                    "script" => return TokenSinkResult::Script(line_number),
                    _ => {}
                }
            }
            Token::Text(text) => self.text += &format!("[{text}]{line_number}"),
            Token::Comment { text, .. } => self.text += &format!("({text})"),
            Token::ParseError { .. } | Token::End { .. } => {}
            other => panic!("{other:?}"),
        }
        TokenSinkResult::Continue
    }

    fn end(&mut self) {
        self.text += "end";
    }

    fn adjusted_current_node_present_but_not_in_html_namespace(&self) -> bool {
        self.depth > 0
    }
}

fn shown(page: &str, size: usize) -> Result<String, Error> {
    let mut tokenizer = SinkTokenizer::new(Shown::default(), &Options::default())?;
    for piece in page.as_bytes().chunks(size) {
        assert_eq!(tokenizer.feed(piece)?, TokenizerResult::Done);
    }
    tokenizer.end()?;
    Ok(tokenizer.sink.text)
}

#[test]
fn what_the_sink_asks_for() -> Result<(), Error> {
    for (page, due) in [
        ("<title>&lt;<b></title><i>", "<title>[<<b>]1</title><i>end"),
        ("\n<plaintext>\n<i>", "[\n]1<plaintext>[\n<i>]2end"),
        ("<svg><![CDATA[a]]></svg><![CDATA[b]]>", "<svg>[a]1</svg>([CDATA[b]])end"),
    ] {
        for size in 1..=page.len() {
            assert_eq!(shown(page, size)?, due);
        }
    }
    Ok(())
}

#[test]
fn it_pauses_where_the_sink_asks() -> Result<(), Error> {
    let mut tokenizer = SinkTokenizer::new(Shown::default(), &Options::default())?;
    assert_eq!(tokenizer.feed(b"1\n</script>3<meta charset=x>")?, TokenizerResult::Script(2));
    assert_eq!(tokenizer.end(), Err(Error::Waiting));
    tokenizer.insert("2<p>")?;
    assert_eq!(tokenizer.feed(&[])?, TokenizerResult::EncodingIndicator("x".to_owned()));
    assert_eq!(tokenizer.feed(b"4")?, TokenizerResult::Done);
    tokenizer.end()?;
    assert_eq!(tokenizer.sink.text, "[1\n]1</script>[2]2<p>[3]2<meta>[4]2end");
    Ok(())
}
