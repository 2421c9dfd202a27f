"""Compares the decoders of crates/html5encodings with encoding_rs, and its labels.

    python3 tools/peers/encodings.py [--keep FOLDER]

It builds two programs that decode records: one in Rattle over the crate, in a copy of what it stands on, by
`rt run`, and one in Rust over Debian's librust-encoding-rs-dev, by cargo without a network. Each record is
decoded by the first in three pieces, cut at places that its number chooses, and by the second at once.
Records are all single bytes and pairs of each encoding, longer ones that its states tell apart, and random
ones. With --keep both are built in FOLDER, and taken from there if they are there. Beyond the gate: it takes
a few minutes to build and half a minute to run, and wants libjs-text-encoding too.
"""

import argparse
import itertools
import pathlib
import random
import runpy
import shutil
import struct
import subprocess
import sys
import tempfile

ROOT = pathlib.Path(__file__).resolve().parents[2]
TOOL = runpy.run_path(str(ROOT / "tools" / "gen" / "encodings.py"))
LIBRARIES = ["ghost_counts", "devices", "html5encodings"]

RATTLE = r"""//! Decodes records.
#![tactic(auto)]

use devices::{ReadSource, WriteTarget, given_words, read_to_end, write_all};
use html5encodings::{Decoder, Encoding};
use std::alloc::{AllocError, Global};
use std::process::ExitCode;

// The text of three pieces.
fn decoded(
    alloc: Global,
    encoding: Encoding,
    first: &[u8],
    second: &[u8],
    third: &[u8],
) -> Result<String, AllocError> {
    let mut decoder = Decoder::new(encoding);
    let mut text = decoder.decode(alloc, first)?;
    let more = decoder.decode(alloc, second)?;
    text.push_str(more.as_str())?;
    let more = decoder.decode(alloc, third)?;
    text.push_str(more.as_str())?;
    text.push_str(decoder.finish())?;
    Ok(text)
}

// Cuts bytes at a place that a number chooses.
fn cut(bytes: &[u8], number: usize) -> (&[u8], &[u8]) {
    let place = number % (bytes.len() + 1);
    match bytes.split_at_checked(place) {
        Some(parts) => parts,
        None => (bytes, &[]),
    }
}

fn append(
    alloc: Global,
    encoding: Encoding,
    bytes: &[u8],
    number: usize,
    out: &mut Vec<u8>,
) -> Result<(), AllocError> {
    let (first, rest) = cut(bytes, number);
    let (second, third) = cut(rest, number / 7);
    let text = decoded(alloc, encoding, first, second, third)?;
    out.extend_from_slice(text.as_str().as_bytes())?;
    out.push(0xFF)?;
    Ok(())
}

// The names of the encodings that lines name, each ended by 0xFF.
fn names(alloc: Global, all: &[u8]) -> Result<Vec<u8>, AllocError> {
    let mut out = Vec::new(alloc);
    for line in all.split(|byte| *byte == 0xFF) {
        if let Ok(text) = std::str::from_utf8(line) {
            if let Some(encoding) = Encoding::for_label(text) {
                out.extend_from_slice(encoding.name().as_bytes())?;
            }
        }
        out.push(0xFF)?;
    }
    Ok(out)
}

fn labelled(bytes: &[u8]) -> Encoding {
    if let Ok(label) = std::str::from_utf8(bytes) {
        if let Some(named) = Encoding::for_label(label) {
            return named;
        }
    }
    Encoding::Replacement
}

// The texts of records, each ended by 0xFF. A record of length 0xFFFF_FFFF is a label.
fn texts(alloc: Global, all: &[u8]) -> Result<Vec<u8>, AllocError> {
    let mut out = Vec::new(alloc);
    let mut rest = all;
    let mut number = 0usize;
    let mut encoding = Encoding::Utf8;
    for _ in 0..u64::MAX {
        let [a, b, c, d, more @ ..] = rest else {
            break;
        };
        let len = u32::from_le_bytes([*a, *b, *c, *d]);
        if len == 0xFFFF_FFFF {
            let [len, label @ ..] = more else {
                break;
            };
            let Some((label, later)) = label.split_at_checked(*len as usize) else {
                break;
            };
            encoding = labelled(label);
            number = 0;
            rest = later;
        } else {
            let Some((bytes, later)) = more.split_at_checked(len as usize) else {
                break;
            };
            append(alloc, encoding, bytes, number, &mut out)?;
            number = number.wrapping_add(1);
            rest = later;
        }
    }
    Ok(out)
}

fn main(rt: HostRuntime) -> ExitCode {
    let Ok(words) = given_words(&rt) else {
        return ExitCode::from(2);
    };
    let Ok(all) = read_to_end(rt.alloc(), &mut ReadSource::new(rt.stdin())) else {
        return ExitCode::from(3);
    };
    let has_words = words.len() > 0;
    let out = if has_words {
        names(rt.alloc(), &all)
    } else {
        texts(rt.alloc(), &all)
    };
    let Ok(out) = out else {
        return ExitCode::from(4);
    };
    match write_all(&mut WriteTarget::new(rt.stdout()), &out) {
        Ok(()) => ExitCode::from(0),
        Err(_) => ExitCode::from(5),
    }
}
"""

RUST = r"""use std::io::{Read, Write};

fn main() {
    let mut all = Vec::new();
    std::io::stdin().read_to_end(&mut all).unwrap();
    let mut out = Vec::new();
    if std::env::args().count() > 1 {
        for line in all.split(|byte| *byte == 0xFF) {
            let named = encoding_rs::Encoding::for_label(line);
            out.extend_from_slice(named.map_or("", |it| it.name()).as_bytes());
            out.push(0xFF);
        }
        std::io::stdout().write_all(&out).unwrap();
        return;
    }
    let mut encoding = encoding_rs::UTF_8;
    let mut rest = &all[..];
    while rest.len() >= 4 {
        let len = u32::from_le_bytes([rest[0], rest[1], rest[2], rest[3]]);
        if len == 0xFFFF_FFFF {
            let end = 5 + rest[4] as usize;
            encoding = encoding_rs::Encoding::for_label(&rest[5..end]).unwrap();
            rest = &rest[end..];
        } else {
            let end = 4 + len as usize;
            let (text, _) = encoding.decode_without_bom_handling(&rest[4..end]);
            out.extend_from_slice(text.as_bytes());
            out.push(0xFF);
            rest = &rest[end..];
        }
    }
    std::io::stdout().write_all(&out).unwrap();
}
"""

CARGO = """[package]
name = "peer"
version = "0.1.0"
edition = "2021"

[dependencies]
encoding_rs = "0.8"
"""

SOURCES = """[source.crates-io]
replace-with = "debian"

[source.debian]
directory = "/usr/share/cargo/registry"

[net]
offline = true
"""


def build_rattle(folder):
    """The Rattle program, built in a copy of the crates below it."""
    program = folder / "crates" / "decode_records" / "out" / "decode_records"
    if program.is_file():
        return program
    for name in LIBRARIES:
        for part in ("src", "specs", "proofs"):
            if (ROOT / "crates" / name / part).is_dir():
                shutil.copytree(ROOT / "crates" / name / part, folder / "crates" / name / part)
    lines = [line for line in (ROOT / "crates.txt").read_text().splitlines() if line.partition(":")[0] in LIBRARIES]
    (folder / "crates.txt").write_text("\n".join([*lines, f"decode_records: {' '.join(LIBRARIES[1:])}", ""]))
    shutil.copy(ROOT / "HANDLES", folder / "HANDLES")
    (program.parent.parent / "src").mkdir(parents=True)
    (program.parent.parent / "src" / "main.rt").write_text(RATTLE)
    subprocess.run(["rt", "run"], cwd=program.parent.parent, input=b"", stdout=subprocess.DEVNULL, check=True)
    return program


def build_rust(folder):
    """The Rust program over encoding_rs."""
    program = folder / "peer" / "target" / "release" / "peer"
    if program.is_file():
        return program
    for path, text in (("Cargo.toml", CARGO), (".cargo/config.toml", SOURCES), ("src/main.rs", RUST)):
        (folder / "peer" / path).parent.mkdir(parents=True, exist_ok=True)
        (folder / "peer" / path).write_text(text)
    subprocess.run(["cargo", "build", "--release", "--offline", "--quiet"], cwd=folder / "peer", check=True)
    return program


def bytes_of(rows):
    return [bytes(row) for row in rows]


def strings(alphabet, *lengths):
    """All strings over an alphabet."""
    return bytes_of(it for length in lengths for it in itertools.product(alphabet, repeat=length))


def two(leads, trails):
    return bytes_of(itertools.product(leads, trails))


def four(pointer):
    """The four bytes of a pointer in gb18030."""
    return bytes([0x81 + pointer // 12600, 0x30 + pointer // 1260 % 10, 0x81 + pointer // 10 % 126, 0x30 + pointer % 10])


def characters(name, dice):
    """What random texts in an encoding are mostly made of."""
    ascii_bytes = bytes_of((byte,) for byte in range(0x20, 0x7F))
    if name == "UTF-8":
        bounds = [(0, 0x80), (0x80, 0x800), (0x800, 0xD800), (0xE000, 0x10000), (0x10000, 0x110000)]
        return [chr(dice.randrange(*dice.choice(bounds))).encode() for _ in range(5000)]
    if name in ("UTF-16LE", "UTF-16BE"):
        units = [dice.choice([dice.randrange(0x10000), dice.randrange(0xD800, 0xE000)]) for _ in range(5000)]
        return [unit.to_bytes(2, "little" if name == "UTF-16LE" else "big") for unit in units]
    if name == "ISO-2022-JP":
        escapes = [b"\x1b(B", b"\x1b(J", b"\x1b(I", b"\x1b$B", b"\x1b$@"]
        return ascii_bytes + escapes * 60 + two(range(0x21, 0x7F), range(0x21, 0x7F))[::7]
    if name == "EUC-JP":
        three = bytes_of(itertools.product([0x8F], range(0xA1, 0xFF), range(0xA1, 0xFF)))
        return ascii_bytes + two(range(0xA1, 0xFF), range(0xA1, 0xFF)) + three + two([0x8E], range(0xA1, 0xE0)) * 50
    if name == "Shift_JIS":
        leads = [*range(0x81, 0xA0), *range(0xE0, 0xFD)]
        return ascii_bytes + two(leads, range(0x40, 0xFD)) + bytes_of((byte,) for byte in range(0xA1, 0xE0)) * 20
    if name in ("GBK", "gb18030", "Big5", "EUC-KR"):
        fours = [four(dice.randrange(*dice.choice([(0, 39420), (189000, 1237576)]))) for _ in range(16000)]
        return ascii_bytes + two(range(0x81, 0xFF), range(0x40, 0xFF)) + (fours if name == "gb18030" else [])
    return bytes_of((byte,) for byte in range(0x100))


def random_bytes(dice, count):
    return dice.getrandbits(8 * count).to_bytes(count, "little")


def random_texts(name, dice):
    """Random bytes, and texts of the encoding that are cut, with other bytes among them."""
    usual, found = characters(name, dice), []
    for number in range(20000):
        count = dice.randrange(1, 60)
        if number % 3 == 0:
            found.append(random_bytes(dice, count))
        else:
            parts = [dice.choice(usual) if dice.random() < 0.9 else random_bytes(dice, 1) for _ in range(count)]
            text = b"".join(parts)
            found.append(text[: dice.randrange(len(text) + 1)] if number % 3 == 1 else text)
    return found


def told_apart(name, ranges, dice):
    """Longer records of bytes that the states of the decoder tell apart."""
    if name == "UTF-8":
        ends = [0x00, 0x41, 0x7F, 0x80, 0x8F, 0x90, 0x9F, 0xA0, 0xBF, 0xC0, 0xC1, 0xC2, 0xDF, 0xE0, 0xE1, 0xEC, 0xED]
        ends += [0xEE, 0xEF, 0xF0, 0xF1, 0xF3, 0xF4, 0xF5, 0xFF]
        scalars = [*range(0xD800), *range(0xE000, 0x110000, 7)]
        fours = strings([0x41, 0x80, 0x8F, 0x90, 0xBF, 0xC2, 0xE0, 0xED, 0xF0, 0xF4], 4)
        return strings(ends, 3) + fours + [chr(scalar).encode() for scalar in scalars]
    if name in ("UTF-16LE", "UTF-16BE"):
        return strings([0x00, 0x41, 0xD7, 0xD8, 0xDB, 0xDC, 0xDF, 0xE0, 0xFF], 3, 4, 5) + strings([0x00, 0xD8, 0xDC], 8)
    if name == "ISO-2022-JP":
        ends = [0x1B, 0x24, 0x28, 0x42, 0x4A, 0x49, 0x40, 0x22, 0x0E, 0x5C, 0x7E, 0x7F, 0x80, 0xA1, 0x0A]
        states = [escape + it for escape in (b"\x1b$B", b"\x1b(I", b"\x1b(J", b"\x1b$@") for it in strings(range(256), 1, 2)]
        return strings(ends, 3, 4) + strings([0x1B, 0x24, 0x28, 0x42, 0x49, 0x22], 5, 6) + states
    if name == "EUC-JP":
        leads = bytes_of(itertools.product([0x8E, 0xA1, 0xB0, 0x41, 0x80, 0xFF], range(0, 256, 3), range(256)))
        return [b"\x8f" + pair for pair in strings(range(256), 2)] + leads
    if name in ("GBK", "gb18030"):
        rows = [row[0] for row in ranges] + [39420, 188999, 189000, 1237575, 1237576, 12600 * 126 - 1]
        ends = {row + by for row in rows for by in range(-3, 4) if 0 <= row + by < 12600 * 126}
        pointers = [*range(39420), *sorted(ends), *(dice.randrange(12600 * 126) for _ in range(60000))]
        given_back = [0x00, 0x20, 0x2F, 0x30, 0x39, 0x3A, 0x40, 0x7E, 0x7F, 0x80, 0x81, 0x84, 0xFE, 0xFF]
        return [four(it) for it in pointers] + strings(given_back, 3, 4) + strings([0x30, 0x41, 0x81, 0x90, 0xFF], 6)
    if name in ("Big5", "Shift_JIS", "EUC-KR"):
        ends = [0x00, 0x20, 0x40, 0x41, 0x5B, 0x7E, 0x7F, 0x80, 0x81, 0x88, 0xA0, 0xA1, 0xDF, 0xE0, 0xF0, 0xFC, 0xFD]
        return strings([*ends, 0xFE, 0xFF], 3, 4)
    return []


def near(label):
    """A label in other spellings, and texts that are nearly it."""
    half = len(label) // 2
    spelt = [label, label.upper(), " " + label, label + "\n", "\t\x0c\r" + label.title() + " "]
    others = [label + "x", "x" + label, label[:-1], label.replace("-", "_"), "\x0b" + label, label + "\0"]
    return [*spelt, *others, label[:half] + " " + label[half:]]


def answers(program, words, text):
    ran = subprocess.run([program, *words], input=text, stdout=subprocess.PIPE, check=True)
    return ran.stdout.split(b"\xff")[:-1]


def is_changed(record, ours, theirs, changed):
    """Whether two texts differ by the code points alone that the Standard changed since."""
    now = {before: after for _, before, after in changed}
    pairs = [struct.pack(">H", pair) for pair, _, _ in changed]
    return any(pair in record for pair in pairs) and ours.decode().translate(now) == theirs.decode().translate(now)


def compare(name, records, programs, changed):
    """Decodes the records of one encoding by both programs, and answers how many texts differ."""
    head = b"\xff\xff\xff\xff" + bytes([len(name)]) + name.encode()
    stream = head + b"".join(struct.pack("<I", len(record)) + record for record in records)
    ours, theirs = (answers(program, [], stream) for program in programs)
    if not len(ours) == len(theirs) == len(records):
        sys.exit(f"{name}: {len(records)} records, {len(ours)} and {len(theirs)} texts")
    found = [row for row in zip(records, ours, theirs) if row[1] != row[2]]
    differing = [row for row in found if name not in ("GBK", "gb18030") or not is_changed(*row, changed)]
    note = f", {len(found) - len(differing)} by what changed in the index" if len(found) > len(differing) else ""
    print(f"{name}: {len(records)} records, {sum(map(len, records))} bytes, {len(differing)} differ{note}", flush=True)
    for record, our, their in differing[:5]:
        print(f"    {record.hex()}: {ascii(our.decode())}, and there {ascii(their.decode())}")
    return len(differing)


def main():
    words = argparse.ArgumentParser(description=__doc__, formatter_class=argparse.RawDescriptionHelpFormatter)
    words.add_argument("--keep", type=pathlib.Path, metavar="FOLDER", help="builds there, and takes what is there")
    given = words.parse_args()
    with tempfile.TemporaryDirectory(prefix="encodings-") as room:
        folder = (given.keep or pathlib.Path(room)).resolve()
        programs = [build_rattle(folder), build_rust(folder)]
        dice, differing, total = random.Random(20261128), 0, 0
        _, ranges = TOOL["indexes"]()
        for name, _ in TOOL["encodings"]():
            records = [b"", *strings(range(256), 1, 2), *told_apart(name, ranges, dice), *random_texts(name, dice)]
            differing, total = differing + compare(name, records, programs, TOOL["CHANGED_GB18030"]), total + len(records)
        labels = [it.encode() for _, labels in TOOL["encodings"]() for label in labels for it in near(label)]
        ours, theirs = (answers(program, ["names"], b"\xff".join(labels)) for program in programs)
        wrong = [row for row in zip(labels, ours, theirs) if row[1] != row[2]]
        print(f"{total} records, {differing} differ; {len(labels)} texts as labels, {len(wrong)} differ: {wrong[:5]}")
    sys.exit(bool(differing or wrong))


if __name__ == "__main__":
    main()
