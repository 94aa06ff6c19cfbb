#!/usr/bin/env python3
"""Times reading, writing, comparing and hashing of scalars: flat lists of growing size, and nested ones of one size.

    bench/scalars.py [--size BYTES] [--repeat N] [--folder PATH]

A program over the crates is proved and built in a folder of its own, which takes minutes the first time; with --folder it is kept.
Values are messages as docs/FORMATS.md has them. It prints nanoseconds a byte of the message, the best of N runs in the program,
and ends with status 1 where a nested value takes more than ten times as long as a flat one of its size, or where ten times as many
elements take more than thirty times as long.
"""
import argparse
import os
import shutil
import subprocess
import sys
import tempfile

HERE = os.path.dirname(os.path.abspath(__file__))
CRATES = os.path.join(HERE, "..", "crates")
LAST = "vortex_scalar"
MOST_LEVELS, MOST_TIMES, MOST_GROWTH = 128, 10, 30

PROGRAM = """//! Times a call on the message on standard input: words are the call and the repeats.
#![tactic(auto)]

use std::hash::{DefaultHasher, Hash, Hasher};
use std::io::Read;
use std::rt::{Clock, Env};
use std::time::Instant;
use std::{env, io};
use std::alloc::Global;
use vortex_scalar::{Scalar, ScalarError, ScalarValue};

#[inline(never)]
fn read(alloc: Global, bytes: &[u8]) -> Result<u64, ScalarError> {
    let value = ScalarValue::from_protobytes(alloc, bytes)?;
    Ok(u64::from(value.is_null()))
}

#[inline(never)]
fn write(alloc: Global, value: &ScalarValue) -> Result<u64, ScalarError> {
    Ok(value.to_protobytes(alloc)?.len() as u64)
}

#[inline(never)]
fn read_scalar(alloc: Global, bytes: &[u8]) -> Result<u64, ScalarError> {
    let scalar = Scalar::from_proto(alloc, bytes)?;
    Ok(u64::from(scalar.is_null()))
}

#[inline(never)]
fn compare(one: &Scalar, other: &Scalar) -> u64 {
    u64::from(one == other)
}

#[inline(never)]
fn hash(scalar: &Scalar) -> u64 {
    let mut state = DefaultHasher::new();
    scalar.hash(&mut state);
    state.finish() % 1000
}

fn word<R: Env + AllocGlobal>(rt: &R, place: usize) -> io::Result<u64> {
    match env::args(rt)?.nth(place) {
        Some(word) => Ok(word.as_str().parse::<u64>().unwrap_or(0)),
        None => Ok(0),
    }
}

fn main(rt: HostRuntime) -> io::Result<()> {
    let call = word(&rt, 1)?;
    let repeats = word(&rt, 2)?;
    let alloc = rt.alloc();
    let mut input = Vec::new(alloc);
    let _read = rt.stdin().read_to_end(&mut input)?;
    let bytes = input.as_slice();
    let value = ScalarValue::from_protobytes(alloc, bytes);
    let one = Scalar::from_proto(alloc, bytes);
    let other = Scalar::from_proto(alloc, bytes);
    let mut best = u128::MAX;
    let mut answer = 0u64;
    for _ in 0..repeats {
        let start = Instant::now(&rt)?;
        let got = match call {
            0 => read(alloc, bytes).unwrap_or(7),
            1 => match &value {
                Ok(value) => write(alloc, value).unwrap_or(7),
                Err(_) => 8,
            },
            2 => read_scalar(alloc, bytes).unwrap_or(7),
            3 => match (&one, &other) {
                (Ok(one), Ok(other)) => compare(one, other),
                _ => 8,
            },
            _ => match &one {
                Ok(one) => hash(one),
                Err(_) => 8,
            },
        };
        let spent = start.elapsed(&rt)?.as_nanos();
        answer = got;
        if spent < best {
            best = spent;
        }
    }
    println!(rt; "{best} {answer}")
}
"""

READ, WRITE, READ_SCALAR, COMPARE, HASH = range(5)


def needed(listed, name, found):
    """The crates of this repository that a crate stands on, itself among them, the lowest first."""
    for below in listed[name]:
        if below in listed:
            needed(listed, below, found)
    if name not in found:
        found.append(name)
    return found


def build(folder):
    """The proved program."""
    lines = [line.split("#")[0].split(":") for line in open(os.path.join(HERE, "..", "crates.txt")) if ":" in line]
    listed = {name: rest.split() for name, rest in lines}
    crates = os.path.join(folder, "crates")
    names = needed(listed, LAST, [])
    for name in names:
        for part in ("src", "specs", "proofs"):
            if os.path.isdir(os.path.join(CRATES, name, part)):
                shutil.copytree(os.path.join(CRATES, name, part), os.path.join(crates, name, part), dirs_exist_ok=True)
    program = os.path.join(crates, "scalars_bench")
    os.makedirs(os.path.join(program, "src"), exist_ok=True)
    with open(os.path.join(program, "src", "main.rt"), "w") as file:
        file.write(PROGRAM)
    with open(os.path.join(folder, "crates.txt"), "w") as file:
        file.write("".join(f"{name}: {' '.join(listed[name])}\n" for name in names) + f"scalars_bench: {LAST}\n")
    built = os.path.join(program, "out", "scalars_bench")
    if not os.access(built, os.X_OK):
        done = subprocess.run(["rt", "run"], cwd=program, stdin=subprocess.DEVNULL, capture_output=True, text=True)
        if not os.access(built, os.X_OK):
            sys.exit(done.stdout[-3000:] + done.stderr[-3000:] + "\nthe program was not built")
    return built


# ---- messages


def varint(number):
    groups = bytearray()
    while number >= 128:
        groups.append(128 + number % 128)
        number //= 128
    groups.append(number)
    return bytes(groups)


def field(number, inside):
    return varint(8 * number + 2) + varint(len(inside)) + inside


def listed(values):
    """The value of a list of these values."""
    return field(9, b"".join(field(1, value) for value in values))


def nested(levels, inside, beside):
    """A list around a list and so on, with so many nulls beside each."""
    value = inside
    for _ in range(levels - 1):
        value = listed([value] + [NULL] * beside)
    return value


NULL = bytes([8, 0])
NUMBER = bytes([0x20, 5])
LIST_OF_U8 = field(8, field(1, field(3, b"")))


def scalar(dtype, value):
    return field(1, dtype) + field(2, value)


# ---- times


def time_of(program, call, repeat, message, path):
    with open(path, "wb") as file:
        file.write(message)
    with open(path, "rb") as source:
        done = subprocess.run([program, str(call), str(repeat)], stdin=source, capture_output=True, text=True, check=True)
    best, answer = done.stdout.split()
    if answer in ("7", "8"):
        sys.exit("the message was refused")
    return int(best)


def main():
    arguments = argparse.ArgumentParser(description=__doc__, formatter_class=argparse.RawDescriptionHelpFormatter)
    arguments.add_argument("--size", type=int, default=1_000_000)
    arguments.add_argument("--repeat", type=int, default=7)
    arguments.add_argument("--folder")
    chosen = arguments.parse_args()
    slow = []
    with tempfile.TemporaryDirectory() as scratch:
        program = build(os.path.abspath(chosen.folder) if chosen.folder else scratch)
        path = os.path.join(scratch, "message")
        print(f"nanoseconds a byte, best of {chosen.repeat}")
        texts = [
            ("a text", field(7, b"a" * chosen.size), field(7, b"a" * chosen.size)),
            ("nulls", listed([NULL] * (chosen.size // 4)), listed([NULL] * (chosen.size // 4))),
            ("nulls beside each level", listed([NULL] * (chosen.size // 4)), None),
        ]
        for name, flat, inside in texts:
            deep = nested(MOST_LEVELS, NULL, chosen.size // 4 // MOST_LEVELS) if inside is None else nested(MOST_LEVELS - (name == "nulls"), inside, 0)
            for call, told in ((READ, "read"), (WRITE, "written")):
                one, other = (time_of(program, call, chosen.repeat, message, path) for message in (flat, deep))
                print(f"{name + ', ' + told:<36} flat {one / len(flat):8.2f}   nested {other / len(deep):8.2f}   ratio {other / one:.2f}", flush=True)
                if other > MOST_TIMES * one:
                    slow.append(f"{name}, {told}")
        for call, told in ((READ_SCALAR, "read"), (COMPARE, "compared"), (HASH, "hashed")):
            before = None
            for count in (10_000, 100_000, 1_000_000):
                message = scalar(LIST_OF_U8, listed([NUMBER] * count))
                spent = time_of(program, call, chosen.repeat, message, path)
                growth = f"   growth {spent / before:.1f}" if before else ""
                print(f"a list of {count} numbers, {told:<9} {spent / count:8.2f} an element{growth}", flush=True)
                if before and spent > MOST_GROWTH * before:
                    slow.append(f"{count} numbers, {told}")
                before = spent
    if slow:
        sys.exit("too slow: " + "; ".join(slow))


main()
