//! The jobs of `bench/arrays.py`, written plainly in Rust over the same buffers, as a yardstick for their time.
//! Words are the kind of column, the job and the repeats; the column comes on standard input as `bench/arrays.py` writes it.

use std::env;
use std::io::{self, Read};
use std::time::Instant;

/// A column: numbers, or lists of them, or texts, by offsets; and bits that are set where a row is not null.
struct Column<'a> {
    rows: usize,
    offsets: Vec<u32>,
    values: &'a [u8],
    bits: &'a [u8],
}

/// What a job gives: offsets, bytes of values, and truth values of rows.
#[derive(Default)]
struct Made {
    offsets: Vec<u32>,
    values: Vec<u8>,
    valid: Vec<u8>,
    truths: Vec<u8>,
    rows: usize,
}

fn is_set(bits: &[u8], i: usize) -> bool {
    bits[i / 8] >> (i % 8) & 1 == 1
}

fn push(bits: &mut Vec<u8>, i: usize, bit: bool) {
    if i % 8 == 0 {
        bits.push(0);
    }
    if bit {
        *bits.last_mut().unwrap() |= 1 << (i % 8);
    }
}

impl Column<'_> {
    fn is_valid(&self, i: usize) -> bool {
        is_set(self.bits, i)
    }
    fn bytes(&self, i: usize, width: usize) -> &[u8] {
        &self.values[self.offsets[i] as usize * width..self.offsets[i + 1] as usize * width]
    }
    fn number(&self, i: usize) -> i64 {
        i64::from_le_bytes(self.values[8 * i..8 * i + 8].try_into().unwrap())
    }
}

/// Offsets that never fall and end in the values, and texts that are UTF-8 where they are not null.
#[inline(never)]
fn decode(kind: &str, column: &Column) -> bool {
    if kind == "numbers" {
        return column.values.len() == 8 * column.rows && column.bits.len() * 8 >= column.rows;
    }
    let width = if kind == "texts" { 1 } else { 8 };
    let mut last = 0;
    for offset in &column.offsets {
        if *offset < last {
            return false;
        }
        last = *offset;
    }
    if last as usize * width > column.values.len() {
        return false;
    }
    kind != "texts" || (0..column.rows).all(|i| !column.is_valid(i) || std::str::from_utf8(column.bytes(i, 1)).is_ok())
}

#[inline(never)]
fn filter(kind: &str, column: &Column, mask: &[u8]) -> Made {
    let mut made = Made::default();
    let width = if kind == "texts" { 1 } else { 8 };
    let mut end = 0u32;
    made.offsets.push(0);
    for i in 0..column.rows {
        if !is_set(mask, i) {
            continue;
        }
        if kind == "numbers" {
            made.values.extend_from_slice(&column.values[8 * i..8 * i + 8]);
        } else {
            let piece = column.bytes(i, width);
            made.values.extend_from_slice(piece);
            end += (piece.len() / width) as u32;
            made.offsets.push(end);
        }
        push(&mut made.valid, made.rows, column.is_valid(i));
        made.rows += 1;
    }
    made
}

#[inline(never)]
fn compare(kind: &str, column: &Column) -> Made {
    let mut made = Made::default();
    for i in 0..column.rows {
        let truth = match kind {
            "numbers" => column.number(i) >= 0,
            "texts" => column.bytes(i, 1) >= b"m".as_slice(),
            _ => column.bytes(i, 8).chunks_exact(8).map(|it| i64::from_le_bytes(it.try_into().unwrap())).ge([0i64]),
        };
        push(&mut made.truths, i, truth && column.is_valid(i));
        push(&mut made.valid, i, column.is_valid(i));
        made.rows += 1;
    }
    made
}

fn number_at(input: &[u8], place: usize) -> usize {
    u64::from_le_bytes(input[8 * place..8 * place + 8].try_into().unwrap()) as usize
}

/// Truth values by a generator that `bench/arrays.py` has too.
fn mask_of(rows: usize) -> Vec<u8> {
    let (mut state, mut mask) = (1u64, Vec::new());
    for i in 0..rows {
        state = state.wrapping_mul(6_364_136_223_846_793_005).wrapping_add(1_442_695_040_888_963_407);
        push(&mut mask, i, state >> 63 == 1);
    }
    mask
}

fn main() {
    let words: Vec<String> = env::args().collect();
    let (kind, job, repeats) = (words[1].as_str(), words[2].as_str(), words[3].parse::<u64>().unwrap());
    let mut input = Vec::new();
    io::stdin().read_to_end(&mut input).unwrap();
    let rows = number_at(&input, 0);
    let (offsets_at, values_at, values_end, bits_at) = (number_at(&input, 3), number_at(&input, 4), number_at(&input, 5), number_at(&input, 6));
    let count = if kind == "numbers" { 0 } else { rows + 1 };
    let offsets = input[offsets_at..offsets_at + 4 * count].chunks_exact(4).map(|it| u32::from_le_bytes(it.try_into().unwrap())).collect();
    let column = Column { rows, offsets, values: &input[values_at..values_end], bits: &input[bits_at..bits_at + rows.div_ceil(8)] };
    let mask = mask_of(rows);
    let (mut best, mut told) = (u128::MAX, String::new());
    for _ in 0..repeats {
        let start = Instant::now();
        let made = match job {
            "filter" => filter(kind, &column, &mask),
            "compare" => compare(kind, &column),
            _ => Made { rows: if decode(kind, &column) { rows } else { 0 }, ..Made::default() },
        };
        best = best.min(start.elapsed().as_nanos());
        let valid = (0..made.valid.len().min(1) * made.rows).filter(|i| is_set(&made.valid, *i)).count();
        told = format!("{} {valid}", made.rows);
    }
    println!("{best} {told}");
}
