// The tokens of parse5's tokenizer alone. Each line of standard input is a text, and each line of output its tokens, as JSON.
const { createInterface } = require("node:readline");
const { Tokenizer, TokenizerMode } = require(`${process.env.NODE_PATH}/parse5/dist/cjs/tokenizer/index.js`);

const MODES = { title: "RCDATA", textarea: "RCDATA", script: "SCRIPT_DATA", plaintext: "PLAINTEXT" };
for (const name of ["style", "xmp", "iframe", "noembed", "noframes"]) MODES[name] = "RAWTEXT";

function tokensOf(text) {
    const tokens = [];
    const tag = (kind, it) => tokens.push([kind, it.tagName, it.attrs.map((a) => [a.name, a.value]), it.selfClosing]);
    const characters = (it) => tokens.push(["text", it.chars]);
    const tokenizer = new Tokenizer({ sourceCodeLocationInfo: false }, {
        onStartTag(it) {
            tag("start", it);
            if (Object.hasOwn(MODES, it.tagName)) tokenizer.state = TokenizerMode[MODES[it.tagName]];
        },
        onEndTag: (it) => tag("end", it),
        onCharacter: characters,
        onWhitespaceCharacter: characters,
        onNullCharacter: characters,
        onComment: (it) => tokens.push(["comment", it.data]),
        onDoctype: (it) => tokens.push(["doctype", it.name, it.publicId, it.systemId, it.forceQuirks]),
        onEof: () => {},
        onParseError: null,
    });
    tokenizer.write(text, true);
    return tokens;
}

createInterface({ input: process.stdin }).on("line", (line) => console.log(JSON.stringify(tokensOf(JSON.parse(line)))));
