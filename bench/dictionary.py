#!/usr/bin/env python3
"""Times the dictionary encoders over rows of growing variety and over rows that were chosen to collide, beside plain Rust.

    bench/dictionary.py [--rows N] [--repeat N] [--folder PATH]

A program over the crate is proved and built in a folder of its own, which takes minutes the first time; with --folder it is kept.
For each kind and number of distinct rows it prints nanoseconds a row, the best of N runs in the program, and the ratios to plain
Rust; the sums of the codes must be equal. Then 10^5 texts of one `BytesHash`, and 10^5 numbers whose hashes begin in one place of
the integer map, beside as many random ones of the same size. It ends with status 1 where these take more than 50 times as long.
"""
import argparse
import os
import random
import shutil
import subprocess
import sys
import tempfile

HERE = os.path.dirname(os.path.abspath(__file__))
CRATES = os.path.join(HERE, "..", "crates")
NEEDED = ["vortex_steps", "vortex_number", "vortex_value", "vortex_terms", "vortex_codes", "vortex_dict"]
PRIME, START, WORD = 1_099_511_628_211, 14_695_981_039_346_656_037, 2**64
COLLIDING, MOST_TIMES = 100_000, 50

PROGRAM = """//! Times the encoding of the rows on standard input: words are the kind and the repeats.
#![tactic(auto)]

use std::alloc::{AllocError, Global};
use std::io::Read;
use std::rt::{Clock, Env};
use std::time::Instant;
use std::{env, io};
use vortex_dict::{BytesDictEncoder, BytesRows, DictError, PrimitiveDictEncoder, PrimitiveRows, UNCONSTRAINED};

fn sum(codes: &[u64]) -> u64 {
    let mut total = 0u64;
    for code in codes {
        total = total.wrapping_mul(3).wrapping_add(*code);
    }
    total
}

#[inline(never)]
fn numbers(alloc: Global, values: &[u64]) -> Result<u64, DictError> {
    let Some(rows) = PrimitiveRows::try_new(values, None) else {
        return Ok(0);
    };
    let mut encoder = PrimitiveDictEncoder::<u64, u64>::new(alloc, &UNCONSTRAINED);
    let codes = encoder.encode(alloc, &rows)?;
    Ok(sum(codes.as_slice()))
}

#[inline(never)]
fn texts<'a>(alloc: Global, bytes: &'a [u8], offsets: &'a [u32]) -> Result<u64, DictError> {
    let Some(rows) = BytesRows::try_new(bytes, offsets, None) else {
        return Ok(0);
    };
    let mut encoder = BytesDictEncoder::<u64>::new(alloc, &UNCONSTRAINED)?;
    let codes = encoder.encode(alloc, &rows)?;
    Ok(sum(codes.as_slice()))
}

/// The numbers of 8 bytes from a place on.
fn numbers_in(alloc: Global, input: &[u8]) -> Result<Vec<u64>, AllocError> {
    let mut values = Vec::new(alloc);
    for piece in input.chunks_exact(8) {
        let mut value = 0u64;
        for byte in piece.iter().rev() {
            value = (value << 8) | u64::from(*byte);
        }
        values.push(value)?;
    }
    Ok(values)
}

fn word<R: Env + AllocGlobal>(rt: &R, place: usize) -> io::Result<u64> {
    match env::args(rt)?.nth(place) {
        Some(word) => Ok(word.as_str().parse::<u64>().unwrap_or(0)),
        None => Ok(0),
    }
}

fn main(rt: HostRuntime) -> io::Result<()> {
    let kind = word(&rt, 1)?;
    let repeats = word(&rt, 2)?;
    let alloc = rt.alloc();
    let mut input = Vec::new(alloc);
    let _read = rt.stdin().read_to_end(&mut input)?;
    let bytes = input.as_slice();
    let heads = numbers_in(alloc, bytes)?;
    let count = heads.first().copied().unwrap_or(0) as usize;
    let mut values = Vec::new(alloc);
    for value in heads.iter().skip(1).take(count) {
        values.push(*value)?;
    }
    let mut offsets = Vec::new(alloc);
    offsets.push(0u32)?;
    for value in values.iter() {
        offsets.push(u32::try_from(*value).unwrap_or(0))?;
    }
    let behind = bytes.get(count.saturating_add(1).saturating_mul(8)..).unwrap_or(&[]);
    let mut best = u128::MAX;
    let mut answer = 0u64;
    for _ in 0..repeats {
        let start = Instant::now(&rt)?;
        let got = if kind == 0 {
            numbers(alloc, values.as_slice())
        } else {
            texts(alloc, behind, offsets.as_slice())
        };
        let spent = start.elapsed(&rt)?.as_nanos();
        answer = got.unwrap_or(0);
        if spent < best {
            best = spent;
        }
    }
    println!(rt; "{best} {answer}")
}
"""


def build(folder):
    """The proved program and the yardstick."""
    crates = os.path.join(folder, "crates")
    for name in NEEDED:
        target = os.path.join(crates, name)
        for part in ("src", "specs", "proofs"):
            if os.path.isdir(os.path.join(CRATES, name, part)):
                shutil.copytree(os.path.join(CRATES, name, part), os.path.join(target, part), dirs_exist_ok=True)
    program = os.path.join(crates, "dictionary_bench")
    os.makedirs(os.path.join(program, "src"), exist_ok=True)
    with open(os.path.join(program, "src", "main.rt"), "w") as file:
        file.write(PROGRAM)
    listed = [line for line in open(os.path.join(HERE, "..", "crates.txt")) if line.split(":")[0] in NEEDED]
    with open(os.path.join(folder, "crates.txt"), "w") as file:
        file.write("".join(listed) + "dictionary_bench: vortex_dict\n")
    built = os.path.join(program, "out", "dictionary_bench")
    if not os.access(built, os.X_OK):
        done = subprocess.run(["rt", "run"], cwd=program, stdin=subprocess.DEVNULL, capture_output=True, text=True)
        if not os.access(built, os.X_OK):
            sys.exit(done.stdout[-3000:] + done.stderr[-3000:] + "\nthe program was not built")
    yardstick = os.path.join(folder, "yardstick")
    subprocess.run(["rustc", "-O", "--edition", "2021", "-o", yardstick, os.path.join(HERE, "dictionary-yardstick.rs")], check=True)
    return built, yardstick


# ---- rows


def numbers_file(path, values):
    with open(path, "wb") as file:
        file.write(len(values).to_bytes(8, "little") + b"".join(value.to_bytes(8, "little") for value in values))


def texts_file(path, texts):
    ends, end = [], 0
    for text in texts:
        end += len(text)
        ends.append(end.to_bytes(8, "little"))
    with open(path, "wb") as file:
        file.write(len(texts).to_bytes(8, "little") + b"".join(ends) + b"".join(texts))


def picked(rows, distinct, source):
    """Row numbers with so many different ones, each once where there are as many."""
    return list(range(rows)) if distinct == rows else [source.randrange(distinct) for _ in range(rows)]


def made_text(number, least, most):
    source = random.Random(number)
    return bytes(source.choices(b"abcdefghijklmnopqrstuvwxyz", k=source.randint(least, most)))


# ---- texts of one hash


def hash_of(text, start=START):
    for byte in text:
        start = ((start ^ byte) * PRIME) % WORD
    return start


# Changes before each of twelve steps after which the hash is the same: a short vector of the lattice of all such, by the method
# of Lenstra, Lenstra and Lovasz.
STEPS = [3, -13, 18, -2, -18, 12, -7, 8, 13, -16, 9, -3]
assert sum(step * PRIME ** (len(STEPS) - place) for place, step in enumerate(STEPS)) % WORD == 0


def pair_from(start, source):
    """Two texts of bytes below 128 that take one state of the hash to one other."""
    while True:
        first, second, a, b = [], [], start, start
        for step in STEPS:
            byte = source.randrange(128)
            other = (b + (a ^ byte) - a + step) ^ b  # the second state moves by `step` more than the first
            if not 0 <= other < 128:
                break
            first.append(byte)
            second.append(other)
            a, b = (a ^ byte) * PRIME % WORD, (b ^ other) * PRIME % WORD
        else:
            if a == b:
                return bytes(first), bytes(second), a


def colliding_texts(count, source):
    """So many texts of bytes below 128 that have one hash: each is a choice between pairs of pieces."""
    state, pairs = START, []
    while 2 ** len(pairs) < count:
        first, second, state = pair_from(state, source)
        pairs.append((first, second))
    texts = [b"".join(pair[number >> place & 1] for place, pair in enumerate(pairs)) for number in range(count)]
    source.shuffle(texts)
    assert len(set(texts)) == count and all(hash_of(text) == state for text in random.Random(1).sample(texts, 100))
    return texts


# ---- times


def time_of(program, words, path):
    with open(path, "rb") as source:
        done = subprocess.run([program] + words, stdin=source, capture_output=True, text=True, check=True)
    best, answer = done.stdout.split()
    return int(best), answer


def compare(name, kind, others, path, rows, built, yardstick, repeat):
    mine, answer = time_of(built, ["0" if kind == "numbers" else "1", str(repeat)], path)
    told = f"{name:<44} {mine / rows:>8.1f}"
    for other in others:
        theirs, theirs_answer = time_of(yardstick, [other, str(repeat)], path)
        if theirs_answer != answer:
            sys.exit(f"{name}: the codes of {other} are others")
        told += f"   {other} {theirs / rows:.1f} ({mine / theirs:.2f})"
    print(told, flush=True)
    return mine


def main():
    arguments = argparse.ArgumentParser(description=__doc__, formatter_class=argparse.RawDescriptionHelpFormatter)
    arguments.add_argument("--rows", type=int, default=1_000_000)
    arguments.add_argument("--repeat", type=int, default=7)
    arguments.add_argument("--folder")
    chosen = arguments.parse_args()
    source = random.Random(20)
    with tempfile.TemporaryDirectory() as scratch:
        built, yardstick = build(os.path.abspath(chosen.folder) if chosen.folder else scratch)
        path = os.path.join(scratch, "rows")
        print(f"nanoseconds a row, best of {chosen.repeat}; in parentheses the ratio to plain Rust")
        for distinct in (10, 10_000, chosen.rows):
            rows = picked(chosen.rows, distinct, source)
            kept = [source.randrange(WORD) for _ in range(distinct)]
            numbers_file(path, [kept[row] for row in rows])
            compare(f"numbers, {distinct} distinct", "numbers", ["numbers", "numbers-fold", "numbers-map"], path, chosen.rows, built, yardstick, chosen.repeat)
            for least, most in ((4, 15), (32, 75)):
                kept = [made_text(number, least, most) for number in range(distinct)]
                texts_file(path, [kept[row] for row in rows])
                compare(f"texts of {least} to {most} bytes, {distinct} distinct", "texts", ["texts", "texts-map"], path, chosen.rows, built, yardstick, chosen.repeat)
        texts = colliding_texts(COLLIDING, source)
        numbers = subprocess.run([yardstick, "colliding", str(COLLIDING)], stdin=subprocess.DEVNULL, capture_output=True, text=True, check=True)
        slow = []
        for name, kind, bad, good in (
            ("texts", "texts", texts, [bytes(source.choices(range(128), k=len(texts[0]))) for _ in texts]),
            ("numbers", "numbers", [int(line) for line in numbers.stdout.split()], [source.randrange(WORD) for _ in range(COLLIDING)]),
        ):
            times = []
            for rows in (good, bad):
                (texts_file if kind == "texts" else numbers_file)(path, rows)
                times.append(compare(f"10^5 {name}, {'random' if rows is good else 'chosen to collide'}", kind, [], path, len(rows), built, yardstick, 3))
            print(f"{name} chosen to collide take {times[1] / times[0]:.1f} times as long")
            slow.append(times[1] > MOST_TIMES * times[0])
    sys.exit(1 if any(slow) else 0)


if __name__ == "__main__":
    main()
