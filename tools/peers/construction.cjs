// The trees of parse5, as the public tests of tree construction write them. Each line of standard input is a page as JSON: its
// text, and the name of its context element or null. Each line of output is its tree, as JSON.
const { createInterface } = require("node:readline");
const { parse, parseFragment } = require(`${process.env.NODE_PATH}/parse5/dist/cjs/index.js`);

const PREFIXES = { "http://www.w3.org/1998/Math/MathML": "math ", "http://www.w3.org/2000/svg": "svg " };

function linesOf(nodes, depth) {
    const lines = [], pad = "| " + "  ".repeat(depth);
    for (const node of nodes) {
        if (node.nodeName === "#text") lines.push(`${pad}"${node.value}"`);
        else if (node.nodeName === "#comment") lines.push(`${pad}<!-- ${node.data} -->`);
        else if (node.nodeName === "#documentType") {
            const ids = node.publicId || node.systemId ? ` "${node.publicId}" "${node.systemId}"` : "";
            lines.push(`${pad}<!DOCTYPE ${node.name}${ids}>`);
        } else {
            lines.push(`${pad}<${PREFIXES[node.namespaceURI] ?? ""}${node.tagName}>`);
            const attributes = node.attrs.map((it) => [it.prefix ? `${it.prefix} ${it.name}` : it.name, it.value]);
            attributes.sort((a, b) => (a[0] < b[0] ? -1 : 1));
            lines.push(...attributes.map(([name, value]) => `${pad}  ${name}="${value}"`));
            if (node.content) lines.push(`${pad}  content`, ...linesOf(node.content.childNodes, depth + 2));
            lines.push(...linesOf(node.childNodes, depth + 1));
        }
    }
    return lines;
}

const created = (name) => ({ nodeName: name, tagName: name, attrs: [], namespaceURI: "http://www.w3.org/1999/xhtml", childNodes: [] });
const options = { scriptingEnabled: false };

createInterface({ input: process.stdin }).on("line", (line) => {
    const [text, context] = JSON.parse(line);
    const root = context ? parseFragment(created(context), text, options) : parse(text, options);
    console.log(JSON.stringify(linesOf(root.childNodes, 0).join("\n")));
});
