#!/usr/bin/env python3
"""Times reading, cutting, selecting and comparing of columns, beside plain Rust, and the costs of bodies that tell many rows.

    bench/arrays.py [--rows N] [--repeat N] [--folder PATH] [--counted]

A program over the crates is proved and built in a folder of its own, which takes minutes the first time; with --folder it is kept.
Columns are of numbers of 64 bits, of texts and of lists of such numbers, each with nulls. For each job it prints milliseconds, the
best of N runs in the program, and the ratio to plain Rust with `-O`; with --counted the ratio of instructions too, by valgrind.
Then bodies of some 200 bytes that tell 4,294,967,295 rows: each is read, compared, cut and filtered to nothing within 100 ms and
16 MB, or the status is 1.
"""
import argparse
import os
import random
import shutil
import struct
import subprocess
import sys
import tempfile
from array import array

sys.dont_write_bytecode = True
sys.path.insert(0, os.path.dirname(os.path.abspath(__file__)))
import streams  # noqa: E402

HERE = os.path.dirname(os.path.abspath(__file__))
CRATES = os.path.join(HERE, "..", "crates")
LAST = ["vortex_array", "vortex_encodings"]
MOST_ROWS, MOST_MILLISECONDS, MOST_MEMORY = 2**32 - 1, 100, 16 << 20

PROGRAM = """//! Times a job on the column on standard input: words are the job and the repeats.
#![tactic(auto)]

ghost use Rattle.std.specs.Prelude.{◌≡◌, ◌<◌};

use std::alloc::Global;
use std::io::Read;
use std::marker::Brand;
use std::rt::{Clock, Env};
use std::sync::ledger::{Blank, Ledger};
use std::time::Instant;
use std::{env, io};
use vortex_array::{Array, ArrayContext, ArrayError, ArrayParts, Compare};
use vortex_buffer::ByteBuffer;
use vortex_mask::{Mask, MaskBuilder};
use vortex_scalar::Scalar;
use vortex_steps::Steps;
use vortex_types::DType;
use vortex_value::Operator;

#[derive(Clone, Copy)]
enum Job {
    Decode,
    Slice,
    Compare,
    Filter,
    /// A filter that keeps nothing.
    None,
}

fn job_of(word: &str) -> Job {
    match word {
        "decode" => Job::Decode,
        "slice" => Job::Slice,
        "compare" => Job::Compare,
        "filter" => Job::Filter,
        _ => Job::None,
    }
}

#[derive(Drop)]
struct Column {
    dtype: DType,
    scalar: Scalar,
    body: ByteBuffer,
    rows: usize,
}

/// A part of the input, by the numbers at its start.
fn part(input: &[u8], from: usize, to: usize) -> &[u8] {
    input.get(from..to).unwrap_or(&[])
}

fn number_at(input: &[u8], place: usize) -> usize {
    let mut value = 0usize;
    for byte in part(input, place.saturating_mul(8), place.saturating_mul(8).saturating_add(8)).iter().rev() {
        value = value.wrapping_mul(256).wrapping_add(usize::from(*byte));
    }
    value
}

fn column_of(alloc: Global, input: &[u8]) -> Option<Column> {
    let (type_end, scalar_end) = (number_at(input, 1), number_at(input, 2));
    let (body_at, body_end) = (number_at(input, 7), number_at(input, 8));
    let dtype = DType::from_proto(alloc, part(input, 72, type_end)).ok()?;
    let scalar = Scalar::from_proto(alloc, part(input, type_end, scalar_end)).ok()?;
    let body = ByteBuffer::from_slice(alloc, part(input, body_at, body_end)).ok()?;
    Some(Column { dtype, scalar, body, rows: number_at(input, 0) })
}

/// Truth values by a generator that the yardstick has too.
fn mask(alloc: Global, rows: usize) -> Option<Mask> {
    let mut state = 1u64;
    let mut made = MaskBuilder::new(alloc);
    for _ in 0..rows {
        state = state.wrapping_mul(6_364_136_223_846_793_005).wrapping_add(1_442_695_040_888_963_407);
        made.push(state >> 63 == 1).ok()?;
    }
    made.finish().ok()
}

#[inline(never)]
fn decode(alloc: Global, names: &ArrayContext, column: &Column) -> Result<Array, ArrayError> {
    let body = column.body.try_clone(alloc).map_err(|_| ArrayError::OutOfMemory)?;
    ArrayParts::try_new(alloc, body)?.decode(alloc, names, &column.dtype, column.rows)
}

/// What a job works on.
#[derive(Drop)]
struct Work {
    names: ArrayContext,
    whole: Array,
    keep: Mask,
}

fn prepared(alloc: Global, job: Job, column: &Column) -> Option<Work> {
    let names = ArrayContext::from_ids(alloc, &NAMES).ok()?;
    let whole = decode(alloc, &names, column).ok()?;
    let keep = match job {
        Job::Filter => mask(alloc, column.rows)?,
        _ => Mask::new_false(column.rows),
    };
    Some(Work { names, whole, keep })
}

/// The job, once.
fn done<L: Ledger>(alloc: Global, job: Job, column: &Column, work: &Work, steps: &mut Steps<L>) -> Result<Array, ArrayError> {
    let whole = &work.whole;
    match job {
        Job::Decode => decode(alloc, &work.names, column),
        Job::Compare => whole.compare(alloc, &column.scalar, Operator::Gte, steps),
        Job::Slice => whole.slice(alloc, whole.len() / 3, whole.len() / 2),
        _ if work.keep.len() == whole.len() => whole.filter(alloc, &work.keep),
        _ => Err(ArrayError::LengthMismatch),
    }
}

/// The job, over a ledger of its own.
fn counted<L: Ledger>(alloc: Global, job: Job, column: &Column, work: &Work, blank: Blank) -> Result<Array, ArrayError>
    requires name { blank.name ≡ L.name }
    requires parts { blank.parts ≡ L.parts }
    requires some { 0 < blank.parts }
{
    let mut steps = Steps::<L>::new(blank);
    done(alloc, job, column, work, &mut steps)
}

fn made(alloc: Global, job: Job, column: &Column, work: &Work) -> Result<Array, ArrayError> {
    counted::<Brand>(alloc, job, column, work, Blank::new(1))
}

/// How long the job takes, once.
fn once(rt: &HostRuntime, job: Job, column: &Column, work: &Work) -> io::Result<u128> {
    let start = Instant::now(rt)?;
    let _made = made(rt.alloc(), job, column, work);
    Ok(start.elapsed(rt)?.as_nanos())
}

/// How many rows the job gives, and how many of them are not null.
fn answer(alloc: Global, job: Job, column: &Column, work: &Work) -> (usize, usize) {
    match made(alloc, job, column, work) {
        Ok(array) => (array.len(), valid(alloc, &array)),
        Err(_) => (0, 0),
    }
}

/// Does the job so often, and gives the least time.
fn timed(rt: &HostRuntime, job: Job, repeats: u64, column: &Column, work: &Work) -> io::Result<u128> {
    let mut best = u128::MAX;
    for _ in 0..repeats {
        best = best.min(once(rt, job, column, work)?);
    }
    Ok(best)
}

/// How many rows are not null.
fn valid(alloc: Global, array: &Array) -> usize {
    match array.validity_mask(alloc) {
        Ok(mask) => mask.true_count(),
        Err(_) => 0,
    }
}

fn word<R: Env + AllocGlobal>(rt: &R, place: usize) -> io::Result<String> {
    match env::args(rt)?.nth(place) {
        Some(word) => Ok(word),
        None => Ok(String::new(rt.alloc())),
    }
}

fn main(rt: HostRuntime) -> io::Result<()> {
    let job = job_of(word(&rt, 1)?.as_str());
    let repeats = word(&rt, 2)?.as_str().parse::<u64>().unwrap_or(0);
    let alloc = rt.alloc();
    let mut input = Vec::new(alloc);
    let _read = rt.stdin().read_to_end(&mut input)?;
    let Some(column) = column_of(alloc, input.as_slice()) else {
        return println!(rt; "0 no column");
    };
    drop(input);
    let Some(work) = prepared(alloc, job, &column) else {
        return println!(rt; "0 refused");
    };
    let best = timed(&rt, job, repeats, &column, &work)?;
    let (rows, valid) = answer(alloc, job, &column, &work);
    println!(rt; "{best} {rows} {valid}")
}
"""

# Which ledger the steps are counted in.
LEDGER = """use Rattle.arrays_bench.proofs.made.Given as goal

abbrev pub ghosts-counted : goal.ghosts-counted
ghosts-counted a = record { name = a.blank.name; parts = a.blank.parts }
"""

NAMES = ["null", "bool", "primitive", "decimal", "varbin", "list", "fixed_size_list", "struct", "ext", "constant"]


def build(folder):
    """The proved program and the yardstick."""
    listed = [line for line in open(os.path.join(HERE, "..", "crates.txt")) if line.strip()]
    lines = {line.split(":")[0]: line for line in listed}
    needed, more = set(), list(LAST)
    while more:
        name = more.pop()
        if name in lines and name not in needed:
            needed.add(name)
            more += lines[name].split(":")[1].split()
    crates = os.path.join(folder, "crates")
    for name in needed:
        for part in ("src", "specs", "proofs"):
            if os.path.isdir(os.path.join(CRATES, name, part)):
                shutil.copytree(os.path.join(CRATES, name, part), os.path.join(crates, name, part), dirs_exist_ok=True)
    program = os.path.join(crates, "arrays_bench")
    os.makedirs(os.path.join(program, "src"), exist_ok=True)
    os.makedirs(os.path.join(program, "proofs", "made"), exist_ok=True)
    with open(os.path.join(program, "proofs", "made", "Invariants.antt"), "w") as file:
        file.write(LEDGER)
    names = ", ".join(f'"vortex.{name}"' for name in NAMES)
    with open(os.path.join(program, "src", "main.rt"), "w") as file:
        file.write(PROGRAM.replace("&NAMES", f"&[{names}]"))
    uses = "vortex_array vortex_buffer vortex_mask vortex_scalar vortex_steps vortex_types vortex_value"
    with open(os.path.join(folder, "crates.txt"), "w") as file:
        file.write("".join(line for line in listed if line.split(":")[0] in needed) + f"arrays_bench: {uses}\n")
    built = os.path.join(program, "out", "arrays_bench")
    if not os.access(built, os.X_OK):
        done = subprocess.run(["rt", "run"], cwd=program, stdin=subprocess.DEVNULL, capture_output=True, text=True)
        if not os.access(built, os.X_OK):
            sys.exit(done.stdout[-3000:] + done.stderr[-3000:] + "\nthe program was not built")
    yardstick = os.path.join(folder, "arrays-yardstick")
    subprocess.run(["rustc", "-O", "--edition", "2021", "-o", yardstick, os.path.join(HERE, "arrays-yardstick.rs")], check=True)
    return built, yardstick


# ---- columns


def varint(number):
    told = bytearray()
    while number > 127:
        told.append(number & 127 | 128)
        number >>= 7
    return bytes(told) + bytes([number])


def field(number, content):
    """A field of Protocol Buffers: a number, or bytes."""
    if isinstance(content, int):
        return varint(8 * number) + varint(content)
    return varint(8 * number + 2) + varint(len(content)) + content


def node(encoding, metadata=b"", children=(), buffers=()):
    return ("table", [(2, NAMES.index(encoding)), (0, ("raw", metadata)), (0, ("offsets", list(children))), (0, ("numbers", list(buffers)))])


def body(root, buffers):
    """The body, and where each buffer begins in it."""
    places, region = [], b""
    records = []
    for buffer in buffers:
        padding = -len(region) % 8
        region += bytes(padding)
        places.append(len(region))
        region += buffer
        records.append(len(buffer) << 32 | padding)
    flat = streams.laid_out(("table", [(0, root), (0, ("records", records))]))
    return region + flat + struct.pack("<I", len(flat)), places


def i64_type(nullable):
    return field(3, field(1, 7) + field(2, nullable))


def offsets_of(lengths):
    ends = array("I", [0])
    end = 0
    for length in lengths:
        end += length
        ends.append(end)
    return ends


def random_bits(rows, source):
    return bytes(source.choices((255, 255, 255, 127, 251, 191), k=(rows + 7) // 8))


def numbers(rows, source):
    values = source.randbytes(8 * rows)
    root = node("primitive", buffers=[0], children=[node("bool", buffers=[1])])
    made, places = body(root, [values, random_bits(rows, source)])
    return i64_type(1), scalar(i64_type(1), field(3, 0)), made, [0, places[0], places[0] + len(values), places[1]]


def texts(rows, source):
    lengths = source.choices(range(4, 16), k=rows)
    ends = offsets_of(lengths)
    values = bytes(source.choices(b"abcdefghijklmnopqrstuvwxyz", k=ends[-1]))
    root = node("varbin", buffers=[0, 1], children=[node("bool", buffers=[2])])
    made, places = body(root, [ends.tobytes(), values, random_bits(rows, source)])
    dtype = field(5, field(1, 1))
    return dtype, scalar(dtype, field(7, b"m")), made, [places[0], places[1], places[1] + len(values), places[2]]


def lists(rows, source):
    ends = offsets_of(source.choices(range(3), k=rows))
    values = source.randbytes(8 * ends[-1])
    elements = node("primitive", buffers=[1])
    root = node("list", field(1, ends[-1]) if ends[-1] else b"", [elements, node("bool", buffers=[2])], [0])
    made, places = body(root, [ends.tobytes(), values, random_bits(rows, source)])
    dtype = field(8, field(1, i64_type(0)) + field(2, 1))
    return dtype, scalar(dtype, field(9, field(1, field(3, 0)))), made, [places[0], places[1], places[1] + len(values), places[2]]


def scalar(dtype, value):
    return field(1, dtype) + field(2, value)


def write(path, rows, column):
    """Nine numbers: rows; ends of type and scalar; offsets, values, the end of values, bits; the body and its end. Then these."""
    dtype, constant, made, places = column
    type_end = 72 + len(dtype)
    at = type_end + len(constant)
    numbers_told = [rows, type_end, at, *(at + place for place in places), at, at + len(made)]
    with open(path, "wb") as file:
        file.write(struct.pack("<9Q", *numbers_told) + dtype + constant + made)


# ---- bodies that tell many rows


def many_rows():
    """A name, a type, a value, and a body of few bytes, of 4,294,967,295 rows."""
    null, u8 = field(1, b""), field(3, b"")
    nothing, seven = field(1, 0), field(4, 7)
    constant = node("constant", buffers=[0])
    yield "null", null, nothing, node("null"), []
    yield "constant", u8, seven, constant, [seven]
    structs = field(7, field(1, b"a") + field(1, b"b") + field(2, u8) + field(2, null))
    both = field(9, field(1, seven) + field(1, nothing))
    yield "structs", structs, both, node("struct", children=[constant, node("null")]), [seven]
    sized = field(10, field(1, null) + field(2, 1))
    yield "lists of one size", sized, field(9, field(1, nothing)), node("fixed_size_list", children=[node("null")]), []
    yield "validity by a constant", field(7, field(3, 1)), nothing, node("struct", children=[constant]), [field(2, 1)]


# ---- times


def run(program, words, path):
    with open(path, "rb") as source:
        child = subprocess.Popen([program, *words], stdin=source, stdout=subprocess.PIPE, text=True)
        told = child.stdout.read().split()
        _, status, usage = os.wait4(child.pid, 0)
    child.returncode = os.waitstatus_to_exitcode(status)
    return int(told[0]) if told else 0, told[1:], usage.ru_maxrss * 1024


def instructions(program, words, path):
    """Of the repeats above the first, by valgrind."""
    counts = []
    for repeats in ("1", "2"):
        with open(path, "rb") as source:
            done = subprocess.run(
                ["valgrind", "--tool=callgrind", "--callgrind-out-file=/dev/null", program, *words, repeats],
                stdin=source, capture_output=True, text=True, check=True)
        line = next(it for it in done.stderr.splitlines() if "Collected" in it)
        counts.append(int(line.split(":")[1]))
    return counts[1] - counts[0]


def compare(name, job, built, yardstick, path, repeat, counted):
    mine, told, _ = run(built, [job, str(repeat)], path)
    if job == "slice":
        print(f"{name + ', ' + job:<28} {mine / 10**6:>10.4f}", flush=True)
        return
    theirs, answer, _ = run(yardstick, [name, job, str(repeat)], path)
    if told[:1] != answer[:1] or job != "decode" and told != answer:
        sys.exit(f"{name}, {job}: {told}, and the yardstick {answer}")
    line = f"{name + ', ' + job:<28} {mine / 10**6:>10.3f} {mine / max(theirs, 1):>6.2f}"
    if counted:
        line += f" {instructions(built, [job], path) / max(instructions(yardstick, [name, job], path), 1):>6.2f}"
    print(line, flush=True)


def main():
    arguments = argparse.ArgumentParser(description=__doc__, formatter_class=argparse.RawDescriptionHelpFormatter)
    arguments.add_argument("--rows", type=int, default=1_000_000)
    arguments.add_argument("--repeat", type=int, default=7)
    arguments.add_argument("--folder")
    arguments.add_argument("--counted", action="store_true")
    chosen = arguments.parse_args()
    source, all_right = random.Random(17), True
    with tempfile.TemporaryDirectory() as scratch:
        built, yardstick = build(os.path.abspath(chosen.folder) if chosen.folder else scratch)
        path = os.path.join(scratch, "column")
        print(f"{'column, job':<28} {'ms':>10}  ratio" + (" ratio of instructions" if chosen.counted else ""))
        for name, make, rows in (("numbers", numbers, 10 * chosen.rows), ("texts", texts, chosen.rows), ("lists", lists, chosen.rows)):
            write(path, rows, make(rows, source))
            for job in ("decode", "slice", "filter", "compare"):
                compare(name, job, built, yardstick, path, chosen.repeat, chosen.counted)
        for name, dtype, value, root, buffers in many_rows():
            write(path, MOST_ROWS, (dtype, scalar(dtype, value), body(root, buffers)[0], [0, 0, 0, 0]))
            for job in ("decode", "slice", "none", "compare"):
                spent, told, memory = run(built, [job, str(chosen.repeat)], path)
                is_right = bool(told) and told[0].isdigit() and spent <= MOST_MILLISECONDS * 10**6 and memory <= MOST_MEMORY
                all_right = all_right and is_right
                print(f"{name + ', ' + job:<40} {spent / 10**6:>10.4f} ms {memory / 2**20:>6.1f} MB {told}{'' if is_right else '  <-'}", flush=True)
    sys.exit(0 if all_right else 1)


if __name__ == "__main__":
    main()
