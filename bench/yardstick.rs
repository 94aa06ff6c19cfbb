//! The job of `vortex select . OP i64:N`, written plainly in Rust, as a yardstick for time and memory.
//! It reads the same streams, refuses the same ones, and writes the same bytes, note and status.

use std::env;
use std::io::{self, Read, Write};
use std::process::exit;

const PLAIN: &[u8] = b"vortex.primitive";
const MOST_NAMES: usize = 65_536;

/// The type message: its length, a header of 64 bytes, and a body of 48.
const TYPE_MESSAGE: [u8; 116] = [
    0x40, 0, 0, 0, 0x18, 0, 0, 0, 0, 0, 0, 0, 0x0C, 0, 0x16, 0, 0x14, 0, 0x15, 0, 0x10, 0, 0x08, 0, 0, 0, 0, 0, //
    0x10, 0, 0, 0, 0, 0, 0, 0, 0x30, 0, 0, 0, 0, 0, 0, 0, 0x10, 0, 0, 0, 0, 0x03, 0, 0, //
    0x04, 0, 0x04, 0, 0, 0, 0, 0, 0x08, 0, 0, 0, 0, 0, 0, 0, //
    0x10, 0, 0, 0, 0, 0, 0, 0, 0x08, 0, 0x09, 0, 0x08, 0, 0x04, 0, 0x08, 0, 0, 0, 0x14, 0, 0, 0, //
    0x03, 0, 0, 0, 0, 0, 0, 0, 0x08, 0, 0x06, 0, 0x04, 0, 0x05, 0, 0x08, 0, 0, 0, 0x07, 0, 0, 0,
];

/// The header of an array, and the flat buffer of its body. The sizes and the row count are filled in.
const HEADER: [u8; 104] = [
    0x18, 0, 0, 0, 0, 0, 0, 0, 0x0C, 0, 0x16, 0, 0x14, 0, 0x15, 0, //
    0x10, 0, 0x08, 0, 0, 0, 0, 0, 0x10, 0, 0, 0, 0, 0, 0, 0, //
    0, 0, 0, 0, 0, 0, 0, 0, 0x10, 0, 0, 0, 0, 0x01, 0, 0, //
    0x08, 0, 0x0C, 0, 0x04, 0, 0x08, 0, 0x08, 0, 0, 0, 0, 0, 0, 0, //
    0x08, 0, 0, 0, 0, 0, 0, 0, 0x01, 0, 0, 0, 0x04, 0, 0, 0, //
    0x10, 0, 0, 0, 0x76, 0x6F, 0x72, 0x74, 0x65, 0x78, 0x2E, 0x70, 0x72, 0x69, 0x6D, 0x69, //
    0x74, 0x69, 0x76, 0x65, 0, 0, 0, 0,
];
const BODY_SIZE_AT: usize = 32;
const ROWS_AT: usize = 60;
const FLAT: [u8; 112] = [
    0x10, 0, 0, 0, 0, 0, 0, 0, 0x08, 0, 0x0C, 0, 0x04, 0, 0x08, 0, //
    0x08, 0, 0, 0, 0x1C, 0, 0, 0, 0x48, 0, 0, 0, 0, 0, 0, 0, //
    0x0C, 0, 0x12, 0, 0x10, 0, 0x04, 0, 0x08, 0, 0x0C, 0, 0, 0, 0, 0, //
    0x10, 0, 0, 0, 0x14, 0, 0, 0, 0x18, 0, 0, 0, 0x1C, 0, 0, 0, //
    0, 0, 0, 0, 0, 0, 0, 0, 0, 0, 0, 0, 0, 0, 0, 0, //
    0, 0, 0, 0, 0, 0, 0, 0, 0x01, 0, 0, 0, 0, 0, 0, 0, //
    0x01, 0, 0, 0, 0, 0, 0, 0, 0, 0, 0, 0, 0, 0, 0, 0,
];
const REGION_LEN_AT: usize = 104;

// Numbers and tables of flat buffers.

fn number(bytes: &[u8], at: usize, width: usize) -> Option<u64> {
    let piece = bytes.get(at..at.checked_add(width)?)?;
    Some(piece.iter().rev().fold(0, |high, low| high << 8 | u64::from(*low)))
}

struct Table {
    place: usize,
    vtable: usize,
    vtable_size: usize,
    inline_size: usize,
}

fn table_at(bytes: &[u8], place: usize) -> Option<Table> {
    let back = number(bytes, place, 4)? as u32 as i32;
    let vtable = usize::try_from(place as i64 - i64::from(back)).ok()?;
    let vtable_size = number(bytes, vtable, 2)? as usize;
    let inline_size = number(bytes, vtable + 2, 2)? as usize;
    let fits = vtable_size % 2 == 0
        && vtable_size >= 4
        && vtable + vtable_size <= bytes.len()
        && inline_size >= 4
        && place + inline_size <= bytes.len();
    fits.then_some(Table { place, vtable, vtable_size, inline_size })
}

fn root(bytes: &[u8]) -> Option<Table> {
    table_at(bytes, number(bytes, 0, 4)? as usize)
}

/// `None` where the bytes are refused, `Some(None)` where the field is absent.
fn field(bytes: &[u8], table: &Table, k: usize, width: usize) -> Option<Option<usize>> {
    if table.vtable_size <= 4 + 2 * k {
        return Some(None);
    }
    let entry = number(bytes, table.vtable + 4 + 2 * k, 2)? as usize;
    if entry == 0 {
        return Some(None);
    }
    (entry >= 4 && entry + width <= table.inline_size).then_some(Some(table.place + entry))
}

fn number_field(bytes: &[u8], table: &Table, k: usize, width: usize) -> Option<u64> {
    match field(bytes, table, k, width)? {
        Some(place) => number(bytes, place, width),
        None => Some(0),
    }
}

fn follow(bytes: &[u8], place: usize) -> Option<usize> {
    Some(place + number(bytes, place, 4)? as usize)
}

fn table_field(bytes: &[u8], table: &Table, k: usize) -> Option<Table> {
    table_at(bytes, follow(bytes, field(bytes, table, k, 4)??)?)
}

/// The place of the first element and the count; an absent vector has no element.
fn vector_field(bytes: &[u8], table: &Table, k: usize, width: usize) -> Option<(usize, usize)> {
    match field(bytes, table, k, 4)? {
        Some(place) => vector_at(bytes, follow(bytes, place)?, width),
        None => Some((0, 0)),
    }
}

fn vector_at(bytes: &[u8], place: usize, width: usize) -> Option<(usize, usize)> {
    let count = number(bytes, place, 4)? as usize;
    (place + 4 + width * count <= bytes.len()).then_some((place + 4, count))
}

// Messages.

/// The kind and the table of the kind of a header, and the size of the body.
fn message(header: &[u8]) -> Option<(u64, Table, u64)> {
    let table = root(header)?;
    let version = number_field(header, &table, 0, 1)?;
    let kind = number_field(header, &table, 1, 1)?;
    let inner = table_field(header, &table, 2)?;
    let size = number_field(header, &table, 3, 8)?;
    (version == 0).then_some((kind, inner, size))
}

fn split(bytes: &[u8], count: u64) -> Option<(&[u8], &[u8])> {
    bytes.split_at_checked(usize::try_from(count).ok()?)
}

fn header(bytes: &[u8]) -> Option<(&[u8], &[u8])> {
    split(bytes.get(4..)?, number(bytes, 0, 4)?)
}

/// What follows a type message of 64-bit whole numbers that are never null.
fn after_type(bytes: &[u8]) -> Option<&[u8]> {
    let (header, rest) = header(bytes)?;
    let (kind, _, size) = message(header)?;
    let (body, rest) = split(rest, size)?;
    let dtype = root(body)?;
    let primitive = table_field(body, &dtype, 1)?;
    let legal = kind == 3
        && number_field(body, &dtype, 0, 1)? == 3
        && number_field(body, &primitive, 0, 1)? == 7
        && number_field(body, &primitive, 1, 1)? == 0;
    legal.then_some(rest)
}

/// How many names the header of an array has, each of which is that of primitive columns.
fn primitive_names(header: &[u8], inner: &Table) -> Option<usize> {
    let (first, count) = vector_field(header, inner, 1, 4)?;
    for i in 0..count {
        let (at, len) = vector_at(header, follow(header, first + 4 * i)?, 1)?;
        if &header[at..at + len] != PLAIN {
            return None;
        }
    }
    (count <= MOST_NAMES).then_some(count)
}

/// The bytes of the buffer with that number.
fn buffer<'a>(region: &'a [u8], flat: &[u8], records: (usize, usize), wanted: usize) -> Option<&'a [u8]> {
    let (mut rest, mut found) = (region, None);
    for i in 0..records.1 {
        let record = number(flat, records.0 + 8 * i, 8)?;
        let (padding, compression, len) = (record & 0xFFFF, record >> 24 & 0xFF, record >> 32);
        if compression != 0 {
            return None;
        }
        let (this, after) = split(split(rest, padding)?.1, len)?;
        if i == wanted {
            found = Some(this);
        }
        rest = after;
    }
    found
}

/// The bytes of the rows of a body, by one primitive node without children.
fn primitive_rows(body: &[u8], rows: u64, names: usize) -> Option<&[u8]> {
    let before_len = body.len().checked_sub(4)?;
    let flat_at = before_len.checked_sub(number(body, before_len, 4)? as usize)?;
    let (region, flat) = (&body[..flat_at], &body[flat_at..before_len]);
    let top = root(flat)?;
    let node = table_field(flat, &top, 0)?;
    let records = vector_field(flat, &top, 1, 8)?;
    let encoding = number_field(flat, &node, 0, 2)? as usize;
    vector_field(flat, &node, 1, 1)?;
    let children = vector_field(flat, &node, 2, 4)?;
    let buffers = vector_field(flat, &node, 3, 4)?;
    if encoding >= names || children.1 != 0 || buffers.1 != 1 {
        return None;
    }
    let found = buffer(region, flat, records, number(flat, buffers.0, 4)? as usize)?;
    (found.len() as u64 == 8 * rows).then_some(found)
}

/// The bytes of the rows of the first array, and what follows it.
fn array(bytes: &[u8]) -> Option<(&[u8], &[u8])> {
    let (header, rest) = header(bytes)?;
    let (kind, inner, size) = message(header)?;
    if kind != 1 {
        return None;
    }
    let rows = number_field(header, &inner, 0, 4)?;
    let names = primitive_names(header, &inner)?;
    let (body, rest) = split(rest, size)?;
    Some((primitive_rows(body, rows, names)?, rest))
}

// The selection.

struct Query {
    operator: String,
    constant: i64,
}

fn query(words: &[String]) -> Option<Query> {
    let [verb, path, operator, literal] = words else {
        return None;
    };
    let digits = literal.strip_prefix("i64:")?;
    if verb != "select" || path != "." || digits.starts_with('+') {
        return None;
    }
    if !["eq", "ne", "lt", "le", "gt", "ge"].contains(&operator.as_str()) {
        return None;
    }
    Some(Query { operator: operator.clone(), constant: digits.parse().ok()? })
}

fn kept_by(region: &[u8], bears: impl Fn(i64) -> bool) -> Vec<u8> {
    let mut kept = Vec::with_capacity(region.len());
    for row in region.chunks_exact(8) {
        if bears(i64::from_le_bytes(row.try_into().unwrap())) {
            kept.extend_from_slice(row);
        }
    }
    kept
}

fn kept(query: &Query, region: &[u8]) -> Vec<u8> {
    let constant = query.constant;
    match query.operator.as_str() {
        "eq" => kept_by(region, |row| row == constant),
        "ne" => kept_by(region, |row| row != constant),
        "lt" => kept_by(region, |row| row < constant),
        "le" => kept_by(region, |row| row <= constant),
        "gt" => kept_by(region, |row| row > constant),
        _ => kept_by(region, |row| row >= constant),
    }
}

fn push_array(output: &mut Vec<u8>, region: &[u8]) {
    let mut header = HEADER;
    let size = (region.len() + FLAT.len() + 4) as u64;
    header[BODY_SIZE_AT..BODY_SIZE_AT + 8].copy_from_slice(&size.to_le_bytes());
    header[ROWS_AT..ROWS_AT + 4].copy_from_slice(&((region.len() / 8) as u32).to_le_bytes());
    let mut flat = FLAT;
    flat[REGION_LEN_AT..REGION_LEN_AT + 4].copy_from_slice(&(region.len() as u32).to_le_bytes());
    output.extend_from_slice(&(HEADER.len() as u32).to_le_bytes());
    output.extend_from_slice(&header);
    output.extend_from_slice(region);
    output.extend_from_slice(&flat);
    output.extend_from_slice(&(FLAT.len() as u32).to_le_bytes());
}

/// The whole output and the numbers of arrays, rows and rows kept.
fn select(query: &Query, input: &[u8]) -> Option<(Vec<u8>, [usize; 3])> {
    let mut rest = after_type(input)?;
    let mut output = TYPE_MESSAGE.to_vec();
    let mut counts = [0; 3];
    while !rest.is_empty() {
        let (region, after) = array(rest)?;
        let kept = kept(query, region);
        counts = [counts[0] + 1, counts[1] + region.len() / 8, counts[2] + kept.len() / 8];
        push_array(&mut output, &kept);
        rest = after;
    }
    Some((output, counts))
}

fn read_to_end() -> io::Result<Vec<u8>> {
    let mut source = io::stdin().lock();
    let mut all = Vec::new();
    let mut piece = [0; 4096];
    loop {
        match source.read(&mut piece)? {
            0 => return Ok(all),
            count => all.extend_from_slice(&piece[..count]),
        }
    }
}

fn refuse(name: &str, status: i32) -> ! {
    eprintln!("error: {name}");
    exit(status)
}

fn main() {
    let words: Vec<String> = env::args().skip(1).collect();
    let Some(query) = query(&words) else { refuse("BadWords", 2) };
    let Ok(input) = read_to_end() else { refuse("ReadFault", 7) };
    let Some((output, [arrays, read, kept])) = select(&query, &input) else { refuse("Unbuilt", 10) };
    let mut sink = io::stdout().lock();
    if sink.write_all(&output).and_then(|()| sink.flush()).is_err() {
        refuse("WriteFault", 8);
    }
    eprintln!("arrays {arrays}, read {read}, kept {kept}");
}
