#!/usr/bin/env python3
"""Times the decoders of crates/html5encodings beside encoding_rs, and prints a table.

    python3 bench/decoding.py [--quick] [--keep FOLDER]

Both programs decode a text in memory many times, in pieces of 65,536 bytes: one in Rattle over the crate, in a copy of
what it stands on, by `rt run`, and one in Rust over Debian's librust-encoding-rs-dev. A time is the processor time of a
process less that of one that decodes nothing, by the number of its rounds, the best of some runs in which the programs
take turns. MB are 1,000,000 bytes. With --keep both are built in FOLDER, and taken from there if they are there.
"""

import argparse
import pathlib
import random
import runpy
import sys
import tempfile

import measure

ROOT = pathlib.Path(__file__).resolve().parent.parent
PEER = runpy.run_path(str(ROOT / "tools" / "peers" / "encodings.py"))
MB = 1_000_000

RATTLE = r"""//! Decodes standard input many times.
#![tactic(auto)]

use devices::{ReadSource, given_words, read_to_end};
use html5encodings::{Decoder, Encoding};
use std::alloc::{AllocError, Global};
use std::process::ExitCode;

// How many bytes of text a round of pieces gives.
fn round(alloc: Global, encoding: Encoding, all: &[u8]) -> Result<usize, AllocError> {
    let mut decoder = Decoder::new(encoding);
    let mut count = 0usize;
    for piece in all.chunks(65536) {
        let text = decoder.decode(alloc, piece)?;
        count = count.wrapping_add(text.len());
    }
    Ok(count.wrapping_add(decoder.finish().len()))
}

fn main(rt: HostRuntime) -> ExitCode {
    let Ok(words) = given_words(&rt) else {
        return ExitCode::from(2);
    };
    // It runs without words where it is built.
    let [label, rounds] = words.as_slice() else {
        return ExitCode::from(0);
    };
    let (Some(encoding), Ok(rounds)) = (Encoding::for_label(label), rounds.parse::<u64>()) else {
        return ExitCode::from(2);
    };
    let Ok(all) = read_to_end(rt.alloc(), &mut ReadSource::new(rt.stdin())) else {
        return ExitCode::from(3);
    };
    let mut count = 0usize;
    for _ in 0..rounds {
        let Ok(more) = round(rt.alloc(), encoding, &all) else {
            return ExitCode::from(4);
        };
        count = more;
    }
    let _ = print!(rt; "{count}\n");
    ExitCode::from(0)
}
"""

RUST = r"""use std::io::Read;

fn round(encoding: &'static encoding_rs::Encoding, all: &[u8]) -> usize {
    let mut decoder = encoding.new_decoder_without_bom_handling();
    let mut count = 0;
    for piece in all.chunks(65536) {
        let mut text = String::with_capacity(decoder.max_utf8_buffer_length(piece.len()).unwrap());
        let _ = decoder.decode_to_string(piece, &mut text, false);
        count += text.len();
    }
    let mut text = String::with_capacity(16);
    let _ = decoder.decode_to_string(b"", &mut text, true);
    count + text.len()
}

fn main() {
    let words: Vec<String> = std::env::args().collect();
    let encoding = encoding_rs::Encoding::for_label(words[1].as_bytes()).unwrap();
    let mut all = Vec::new();
    std::io::stdin().read_to_end(&mut all).unwrap();
    let mut count = 0;
    for _ in 0..words[2].parse::<u64>().unwrap() {
        count = round(encoding, &all);
    }
    println!("{count}");
}
"""


def words(letters, dice, count):
    return " ".join("".join(dice.choices(letters, k=dice.randint(2, 9))) for _ in range(count))


def page(letters, size, dice):
    """Paragraphs of words with tags, in so many characters at least."""
    found, have = [], 0
    while have < size:
        part = f'<p class="text"><a href="/page/{dice.randrange(10000)}">{words(letters, dice, 3)}</a> {words(letters, dice, 40)}</p>\n'
        found.append(part)
        have += len(part)
    return "".join(found)


def rows(size):
    """Each text with its label."""
    dice = random.Random(2026)
    english = "etaoinshrdlucmfwypvbgkjqxz"
    western = english * 4 + "éèàüöäçñß"
    japanese = [chr(c) for c in range(0x3042, 0x3093)] * 3 + [chr(c) for c in range(0x4E00, 0x4E80)]
    japanese = [c for c in japanese if can_encode(c, "shift_jis")]
    yield "ASCII as UTF-8", "utf-8", page(english, size, dice).encode()
    yield "English and Japanese in UTF-8", "utf-8", page(japanese, size // 2, dice).encode()
    yield "ASCII as windows-1252", "windows-1252", page(english, size, dice).encode()
    yield "French and German in windows-1252", "windows-1252", page(western, size, dice).encode("cp1252")
    yield "Japanese in Shift_JIS", "shift_jis", page(japanese, size // 2, dice).encode("shift_jis")


def can_encode(c, label):
    try:
        return len(c.encode(label)) == 2
    except UnicodeEncodeError:
        return False


def programs(folder):
    """The two programs, built by what tools/peers/encodings.py builds its own with."""
    build_rattle, build_rust = PEER["build_rattle"], PEER["build_rust"]
    build_rattle.__globals__["RATTLE"], build_rust.__globals__["RUST"] = RATTLE, RUST
    return {"here": build_rattle(folder), "encoding_rs": build_rust(folder)}


def seconds_a_round(program, label, corpus, rounds, runs):
    """The best time of a round."""
    best = measure.best_times([(program, [label, str(rounds)], corpus), (program, [label, "0"], corpus)], runs)
    return max(best[0] - best[1], 1e-9) / rounds


def print_table(folder, built, size, rounds, runs):
    print("| Text | MB | Here, MB/s | encoding_rs, MB/s | Ratio |\n|---|---|---|---|---|")
    for name, label, text in rows(size):
        corpus = folder / "corpus"
        corpus.write_bytes(text)
        speeds = {who: len(text) / MB / seconds_a_round(program, label, corpus, rounds, runs) for who, program in built.items()}
        ratio = speeds["here"] / speeds["encoding_rs"]
        print(f"| {name} | {len(text) / MB:.1f} | {speeds['here']:.0f} | {speeds['encoding_rs']:.0f} | {ratio:.2f} |", flush=True)


def main():
    sys.dont_write_bytecode = True
    words_read = argparse.ArgumentParser(description=__doc__, formatter_class=argparse.RawDescriptionHelpFormatter)
    words_read.add_argument("--quick", action="store_true", help="a shorter text, fewer rounds")
    words_read.add_argument("--keep", type=pathlib.Path, help="a folder for the two programs")
    said = words_read.parse_args()
    size, rounds, runs = (2 * MB, 5, 2) if said.quick else (16 * MB, 10, 5)
    with tempfile.TemporaryDirectory() as scratch:
        folder = pathlib.Path(scratch)
        print_table(folder, programs((said.keep or folder / "programs").resolve()), size, rounds, runs)


if __name__ == "__main__":
    main()
