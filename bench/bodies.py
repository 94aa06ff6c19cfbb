#!/usr/bin/env python3
"""Times how bodies of nodes are read, good ones and hostile ones.

    bench/bodies.py [--repeat N] [--folder PATH]

A program over the crate is proved and built in a folder of its own, which takes minutes the first time; with --folder it is kept.
For each body it prints its bytes, whether it is one, the time of one reading (the best of N) and the peak memory. It ends with
status 1 where a body is not read or refused as it is to be, or takes longer than its limit.
"""
import argparse
import os
import shutil
import struct
import subprocess
import sys
import tempfile

HERE = os.path.dirname(os.path.abspath(__file__))
CRATES = os.path.join(HERE, "..", "crates")
NEEDED = ["vortex_prelude", "vortex_terms", "vortex_buffer", "vortex_flat", "vortex_body"]

PROGRAM = """//! Times the reading of the body on standard input: the word is the repeats.
#![tactic(auto)]

use std::alloc::Global;
use std::io::Read;
use std::rt::{Clock, Env};
use std::time::Instant;
use std::{env, io};
use vortex_body::NodeParts;
use vortex_buffer::ByteBuffer;

fn word<R: Env + AllocGlobal>(rt: &R, place: usize) -> io::Result<u64> {
    match env::args(rt)?.nth(place) {
        Some(word) => Ok(word.as_str().parse::<u64>().unwrap_or(0)),
        None => Ok(0),
    }
}

fn is_read(alloc: Global, bytes: &[u8]) -> bool {
    match ByteBuffer::from_slice(alloc, bytes) {
        Ok(body) => NodeParts::try_new(alloc, body).is_ok(),
        Err(_) => false,
    }
}

fn main(rt: HostRuntime) -> io::Result<()> {
    let repeats = word(&rt, 1)?;
    let alloc = rt.alloc();
    let mut input = Vec::new(alloc);
    let _read = rt.stdin().read_to_end(&mut input)?;
    let mut best = u128::MAX;
    let mut is_body = false;
    for _ in 0..repeats {
        let start = Instant::now(&rt)?;
        is_body = is_read(alloc, input.as_slice());
        let spent = start.elapsed(&rt)?.as_nanos();
        if spent < best {
            best = spent;
        }
    }
    println!(rt; "{best} {is_body}")
}
"""


def build(folder):
    """The proved program."""
    crates = os.path.join(folder, "crates")
    for name in NEEDED:
        target = os.path.join(crates, name)
        for part in ("src", "specs", "proofs"):
            if os.path.isdir(os.path.join(CRATES, name, part)):
                shutil.copytree(os.path.join(CRATES, name, part), os.path.join(target, part), dirs_exist_ok=True)
    program = os.path.join(crates, "bodies_bench")
    os.makedirs(os.path.join(program, "src"), exist_ok=True)
    with open(os.path.join(program, "src", "main.rt"), "w") as file:
        file.write(PROGRAM)
    listed = [line for line in open(os.path.join(HERE, "..", "crates.txt")) if line.split(":")[0] in NEEDED]
    with open(os.path.join(folder, "crates.txt"), "w") as file:
        file.write("".join(listed) + "bodies_bench: vortex_buffer vortex_body\n")
    built = os.path.join(program, "out", "bodies_bench")
    if not os.access(built, os.X_OK):
        done = subprocess.run(["rt", "run"], cwd=program, stdin=subprocess.DEVNULL, capture_output=True, text=True)
        if not os.access(built, os.X_OK):
            sys.exit(done.stdout[-3000:] + done.stderr[-3000:] + "\nthe program was not built")
    return built


def words(*numbers):
    return struct.pack(f"<{len(numbers)}I", *numbers)


def body(flat):
    return flat + words(len(flat))


# The root at 36 leads to a descriptor of no byte at 52 and to the first node at 60; the vtable of nodes with children is at 12,
# that of nodes without at 24.
HEAD = words(36, 0x000C0008, 0x00080004, 0x000C000C, 0, 0x00080004, 0x0008000C, 0, 0x00040000, 32, 20, 4, 1, 0, 0)


def doubled(levels, count, last=0):
    """Nodes of so many levels, each with the next one as both children, which share a vector of so many places."""
    places = 24 * levels + 44
    nodes = [words(24 * k + 24, 8, places - 24 * k - 44, 2, 8, 4) for k in range(1, levels)]
    return body(HEAD + b"".join(nodes) + words(24 * levels + 12, 4, count) + bytes(4 * (count - 1)) + words(last))


def one_child(count, places):
    """A node whose so many children are one leaf, which names so many buffers."""
    leaf = 76 + 4 * count
    offsets = struct.pack(f"<{count}I", *range(4 * count, 0, -4))
    return body(HEAD + words(48, 8, leaf + 8 - 68, count) + offsets + words(leaf - 24, 4, places) + bytes(4 * places))


def long_metadata(size):
    return body(words(20, 0x00080006, 4, 0x00080008, 0x00040000, 16, 4, 16, 4, size) + bytes(size))


# What a body is called, whether it is one, the limit in milliseconds, and how it is made.
BODIES = [
    ("12 doubled levels, 400 shared places", True, 20, lambda: doubled(12, 400)),
    ("the same, the last place is none", False, 20, lambda: doubled(12, 400, 1)),
    ("22 doubled levels, 400 shared places", False, 1000, lambda: doubled(22, 400)),
    ("the same with 100,000 places", False, 1000, lambda: doubled(22, 100_000)),
    ("2,000,000 times a leaf of 2,000,000 places", True, 4000, lambda: one_child(2_000_000, 2_000_000)),
    ("metadata of 16 MB", True, 1000, lambda: long_metadata(1 << 24)),
]


def run(program, repeat, path):
    """Nanoseconds, whether it is a body, and the peak memory in bytes."""
    with open(path, "rb") as source:
        child = subprocess.Popen([program, str(repeat)], stdin=source, stdout=subprocess.PIPE, text=True)
        told = child.stdout.read().split()
        _, _, usage = os.wait4(child.pid, 0)
    return int(told[0]), told[1] == "true", usage.ru_maxrss * 1024


def main():
    arguments = argparse.ArgumentParser(description=__doc__, formatter_class=argparse.RawDescriptionHelpFormatter)
    arguments.add_argument("--repeat", type=int, default=3)
    arguments.add_argument("--folder")
    chosen = arguments.parse_args()
    all_right = True
    with tempfile.TemporaryDirectory() as scratch:
        built = build(os.path.abspath(chosen.folder) if chosen.folder else scratch)
        path = os.path.join(scratch, "body")
        print(f"{'body':<44} {'bytes':>9} {'is one':>6} {'ms':>8} {'memory':>9}")
        for name, wanted, limit, make in BODIES:
            content = make()
            with open(path, "wb") as file:
                file.write(content)
            spent, is_body, memory = run(built, chosen.repeat, path)
            is_right = is_body == wanted and spent <= limit * 10**6
            all_right = all_right and is_right
            print(f"{name:<44} {len(content):>9} {str(is_body):>6} {spent / 10**6:>8.1f} {memory / 2**20:>6.1f} MB{'' if is_right else '  <-'}", flush=True)
    if not all_right:
        sys.exit(1)


if __name__ == "__main__":
    main()
