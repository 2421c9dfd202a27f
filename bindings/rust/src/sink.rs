//! A sink that says how a page is read on, as a tree builder does.

use crate::{Error, Fed, Options, Replies, State, Token, Tokenizer};

/// Text in which only an end tag of the last start tag's name is markup.
#[derive(Clone, Copy, Debug, PartialEq, Eq)]
pub enum RawKind {
    /// With references, as in `title`.
    Rcdata,
    /// As in `style`.
    Rawtext,
    /// As in `script`.
    ScriptData,
}

/// What a sink asks for after a token. After any other than a tag only [`TokenSinkResult::Continue`] is followed.
#[derive(Clone, Debug, PartialEq, Eq)]
pub enum TokenSinkResult<Handle> {
    /// To read on.
    Continue,
    /// To pause for a script.
    Script(Handle),
    /// To read plain text, to the end.
    Plaintext,
    /// To read raw text, up to the end tag of the last start tag.
    RawData(RawKind),
    /// To pause, since the page names an encoding.
    EncodingIndicator(String),
}

/// What a feed came to.
#[derive(Clone, Debug, PartialEq, Eq)]
pub enum TokenizerResult<Handle> {
    /// All of it was read.
    Done,
    /// The sink asked to pause for a script. The rest waits.
    Script(Handle),
    /// The sink asked to pause at an encoding. The rest waits.
    EncodingIndicator(String),
}

/// What is sent the tokens of a page, with the names of html5ever's trait.
pub trait TokenSink {
    /// What a script is in the sink.
    type Handle;

    /// Takes a token, with the line that was reached; of a text, that is the one on which it begins. A text is sent when
    /// its end is known.
    fn process_token(&mut self, token: Token<'_>, line_number: u64) -> TokenSinkResult<Self::Handle>;

    /// Takes the end of the page, after the token of the end.
    fn end(&mut self) {}

    /// Whether `<![CDATA[` opens a section. The tokenizer asks after each tag.
    fn adjusted_current_node_present_but_not_in_html_namespace(&self) -> bool {
        false
    }
}

/// A tokenizer that sends its tokens to a sink, and follows what the sink asks for.
///
/// ```
/// use firnuubal::{Options, RawKind, SinkTokenizer, Token, TokenSink, TokenSinkResult};
///
/// struct Texts(Vec<String>);
///
/// impl TokenSink for Texts {
///     type Handle = ();
///
///     fn process_token(&mut self, token: Token<'_>, _: u64) -> TokenSinkResult<()> {
///         match token {
///             Token::StartTag(tag) if tag.name == "style" => TokenSinkResult::RawData(RawKind::Rawtext),
///             Token::Text(text) => {
///                 self.0.push(text.to_owned());
///                 TokenSinkResult::Continue
///             }
///             _ => TokenSinkResult::Continue,
///         }
///     }
/// }
///
/// let mut tokenizer = SinkTokenizer::new(Texts(Vec::new()), &Options::default())?;
/// tokenizer.feed(b"<style><b></style><title><b>")?;
/// tokenizer.end()?;
/// assert_eq!(tokenizer.sink.0, ["<b>"]);
/// # Ok::<(), firnuubal::Error>(())
/// ```
#[derive(Debug)]
pub struct SinkTokenizer<S> {
    /// The sink.
    pub sink: S,
    tokenizer: Tokenizer,
    line: u64,
    foreign: bool,
}

impl<S: TokenSink> SinkTokenizer<S> {
    /// A tokenizer at the start of a page. The sink replies to tags, whatever the options say of that and of foreign content.
    pub fn new(sink: S, options: &Options<'_>) -> Result<SinkTokenizer<S>, Error> {
        let foreign = sink.adjusted_current_node_present_but_not_in_html_namespace();
        let options = Options { replies: Replies::Caller, foreign, ..*options };
        Ok(SinkTokenizer { sink, tokenizer: Tokenizer::new(&options)?, line: 1, foreign })
    }

    /// Reads the next bytes, up to a tag at which the sink asks to pause. After that it goes on, with the waiting text and these
    /// bytes.
    pub fn feed(&mut self, bytes: &[u8]) -> Result<TokenizerResult<S::Handle>, Error> {
        let fed = self.tokenizer.feed(bytes);
        self.read_on(fed, |tokenizer| tokenizer.feed(&[]))
    }

    // Sends what was read, and reads on up to a tag at which the sink asks to pause.
    fn read_on(
        &mut self,
        mut fed: Result<Fed, Error>,
        next: impl Fn(&mut Tokenizer) -> Result<Fed, Error>,
    ) -> Result<TokenizerResult<S::Handle>, Error> {
        loop {
            let asked = self.send_tokens();
            if fed? == Fed::Done {
                return Ok(TokenizerResult::Done);
            }
            self.follow_foreign()?;
            match asked {
                TokenSinkResult::Continue => {}
                TokenSinkResult::Plaintext => self.tokenizer.reply(State::Plaintext)?,
                TokenSinkResult::RawData(kind) => self.tokenizer.reply(state_of(kind))?,
                TokenSinkResult::Script(handle) => return Ok(TokenizerResult::Script(handle)),
                TokenSinkResult::EncodingIndicator(text) => return Ok(TokenizerResult::EncodingIndicator(text)),
            }
            fed = next(&mut self.tokenizer);
        }
    }

    /// Puts a text in front of the waiting text, as `document.write` does.
    pub fn insert(&mut self, text: &str) -> Result<(), Error> {
        self.tokenizer.insert(text)
    }

    /// Ends the page. Where the options have an encoding, its held bytes are read first, up to a tag at which the sink asks to
    /// pause: then the page has not ended, and this is called again.
    pub fn end(&mut self) -> Result<TokenizerResult<S::Handle>, Error> {
        let fed = self.tokenizer.end();
        let read = self.read_on(fed, Tokenizer::end)?;
        if matches!(read, TokenizerResult::Done) {
            self.sink.end();
        }
        Ok(read)
    }

    // Sends the tokens that were read. It answers what the sink asks for after the last one.
    fn send_tokens(&mut self) -> TokenSinkResult<S::Handle> {
        let mut asked = TokenSinkResult::Continue;
        for token in self.tokenizer.tokens() {
            self.line = token.line().unwrap_or(self.line);
            asked = self.sink.process_token(token, self.line);
        }
        asked
    }

    fn follow_foreign(&mut self) -> Result<(), Error> {
        let foreign = self.sink.adjusted_current_node_present_but_not_in_html_namespace();
        if foreign == self.foreign {
            return Ok(());
        }
        self.foreign = foreign;
        self.tokenizer.set_foreign(foreign)
    }
}

fn state_of(kind: RawKind) -> State {
    match kind {
        RawKind::Rcdata => State::Rcdata,
        RawKind::Rawtext => State::Rawtext,
        RawKind::ScriptData => State::ScriptData,
    }
}
