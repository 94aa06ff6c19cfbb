//! The jobs of the dictionary encoders, written plainly in Rust, as a yardstick for their time.
//! Words are the kind of job and the repeats; rows come on standard input as `bench/dictionary.py` writes them.
//! With `colliding` and a count it prints numbers that were chosen to collide.

use std::collections::HashMap;
use std::env;
use std::hash::{BuildHasherDefault, Hasher};
use std::io::{self, Read};
use std::time::Instant;

const MULTIPLIER: u64 = 0x9e37_79b9_7f4a_7c15;

/// Multiplies to 128 bits and joins the halves, as the hasher of the proved map does.
#[derive(Default)]
struct Fold(u64);

impl Hasher for Fold {
    fn finish(&self) -> u64 {
        self.0
    }
    fn write(&mut self, _bytes: &[u8]) {
        unreachable!("numbers alone are hashed")
    }
    fn write_u64(&mut self, value: u64) {
        let product = u128::from(self.0 ^ 0x243f_6a88_85a3_08d3 ^ value) * u128::from(MULTIPLIER ^ 16);
        self.0 = product as u64 ^ (product >> 64) as u64;
    }
}

struct Texts {
    bytes: Vec<u8>,
    offsets: Vec<u32>,
}

impl Texts {
    fn len(&self) -> usize {
        self.offsets.len() - 1
    }
    fn row(&self, i: usize) -> &[u8] {
        &self.bytes[self.offsets[i] as usize..self.offsets[i + 1] as usize]
    }
}

fn number_at(input: &[u8], at: usize) -> u64 {
    u64::from_le_bytes(input[at..at + 8].try_into().unwrap())
}

fn sum(codes: &[u64]) -> u64 {
    codes.iter().fold(0u64, |total, code| total.wrapping_mul(3).wrapping_add(*code))
}

#[inline(never)]
fn numbers_by<S: std::hash::BuildHasher + Default>(values: &[u64]) -> u64 {
    let mut places: HashMap<u64, u32, S> = HashMap::default();
    let mut distinct: Vec<Option<u64>> = Vec::new();
    let mut codes: Vec<u64> = Vec::with_capacity(values.len());
    for value in values {
        let place = *places.entry(*value).or_insert_with(|| {
            distinct.push(Some(*value));
            distinct.len() as u32 - 1
        });
        codes.push(u64::from(place));
    }
    sum(&codes)
}

/// Twelve lanes of the index of the proved map: the tag of each hash, 0 where the lane is free, and the place of the entry.
#[derive(Clone)]
struct Group {
    tags: [u8; 16],
    places: [u32; 12],
}

impl Group {
    #[inline(always)]
    fn lanes_of(&self, tag: u8) -> u32 {
        use std::arch::x86_64::*;
        let same = unsafe { _mm_cmpeq_epi8(_mm_loadu_si128(self.tags.as_ptr().cast()), _mm_set1_epi8(tag as i8)) };
        unsafe { _mm_movemask_epi8(same) as u32 & 0xfff }
    }
}

/// The table of the proved map: keys and values side by side in the order in which they came, and an index of groups.
#[derive(Default)]
struct Dense {
    groups: Vec<Group>,
    hashes: Vec<u32>,
    keys: Vec<u64>,
    codes: Vec<u32>,
}

impl Dense {
    #[inline(always)]
    fn find(&self, hash: u32, key: u64) -> Option<u32> {
        if self.groups.is_empty() {
            return None;
        }
        let (mask, tag) = (self.groups.len() - 1, tag_of(hash));
        let mut at = hash as usize & mask;
        loop {
            let group = &self.groups[at];
            let mut lanes = group.lanes_of(tag);
            while lanes != 0 {
                let place = group.places[lanes.trailing_zeros() as usize] as usize;
                if self.keys[place] == key {
                    return Some(self.codes[place]);
                }
                lanes &= lanes - 1;
            }
            let overflow = u32::from_le_bytes(group.tags[12..].try_into().unwrap());
            if overflow >> (tag & 31) & 1 == 0 {
                return None;
            }
            at = (at + 1) & mask;
        }
    }
    #[inline(never)]
    fn add(&mut self, hash: u32, key: u64, code: u32) {
        if self.keys.len() == 9 * self.groups.len() {
            self.groups = vec![Group { tags: [0; 16], places: [0; 12] }; (2 * self.groups.len()).max(1)];
            for place in 0..self.hashes.len() {
                self.put(self.hashes[place], place as u32);
            }
        }
        self.put(hash, self.keys.len() as u32);
        self.hashes.push(hash);
        self.keys.push(key);
        self.codes.push(code);
    }
    fn put(&mut self, hash: u32, place: u32) {
        let (mask, tag) = (self.groups.len() - 1, tag_of(hash));
        let mut at = hash as usize & mask;
        loop {
            let group = &mut self.groups[at];
            let free = group.lanes_of(0);
            if free != 0 {
                let lane = free.trailing_zeros() as usize;
                group.tags[lane] = tag;
                group.places[lane] = place;
                return;
            }
            group.tags[12 + usize::from(tag & 31) / 8] |= 1 << (tag & 7);
            at = (at + 1) & mask;
        }
    }
}

fn tag_of(hash: u32) -> u8 {
    ((hash >> 24) as u8).max(1)
}

#[inline(never)]
fn numbers_by_table(values: &[u64]) -> u64 {
    let mut table = Dense::default();
    let mut distinct: Vec<Option<u64>> = Vec::new();
    let mut codes: Vec<u64> = Vec::with_capacity(values.len());
    for value in values {
        let mut hasher = Fold::default();
        hasher.write_u64(*value);
        let hash = (hasher.finish() ^ hasher.finish() >> 32) as u32;
        let place = table.find(hash, *value).unwrap_or_else(|| {
            let place = distinct.len() as u32;
            table.add(hash, *value, place);
            distinct.push(Some(*value));
            place
        });
        codes.push(u64::from(place));
    }
    sum(&codes)
}

fn fnv(key: &[u8]) -> u64 {
    key.iter().fold(14_695_981_039_346_656_037, |hash, byte| (hash ^ u64::from(*byte)).wrapping_mul(1_099_511_628_211))
}

/// The table of the proved crate: keys in one buffer, and slots that hold a code and 1.
#[derive(Default)]
struct Table {
    bytes: Vec<u8>,
    offsets: Vec<u32>,
    slots: Vec<u32>,
}

impl Table {
    fn key(&self, code: usize) -> &[u8] {
        &self.bytes[self.offsets[code] as usize..self.offsets[code + 1] as usize]
    }
    #[inline(always)]
    fn find_or_add(&mut self, key: &[u8]) -> u32 {
        let hash = fnv(key) as usize;
        let count = self.slots.len();
        if count != 0 {
            let mut at = hash & (count - 1);
            while self.slots[at] != 0 {
                let code = self.slots[at] - 1;
                if self.key(code as usize) == key {
                    return code;
                }
                at = (at + 1) & (count - 1);
            }
        }
        self.add(key, hash)
    }
    #[inline(never)]
    fn add(&mut self, key: &[u8], hash: usize) -> u32 {
        if self.offsets.is_empty() {
            self.offsets.push(0);
        }
        let code = self.offsets.len() - 1;
        if self.offsets.len() > self.slots.len() / 2 {
            self.slots = vec![0; (self.slots.len() * 2).max(16)];
            for old in 0..code {
                let start = fnv(self.key(old)) as usize;
                self.put(start, old as u32);
            }
        }
        self.bytes.extend_from_slice(key);
        self.offsets.push(self.bytes.len() as u32);
        self.put(hash, code as u32);
        code as u32
    }
    fn put(&mut self, hash: usize, code: u32) {
        let count = self.slots.len();
        let mut at = hash & (count - 1);
        while self.slots[at] != 0 {
            at = (at + 1) & (count - 1);
        }
        self.slots[at] = code + 1;
    }
}

#[inline(never)]
fn texts_by_table(rows: &Texts) -> u64 {
    let mut table = Table::default();
    let codes: Vec<u64> = (0..rows.len()).map(|i| u64::from(table.find_or_add(rows.row(i)))).collect();
    sum(&codes)
}

#[inline(never)]
fn texts_by_map(rows: &Texts) -> u64 {
    let mut places: HashMap<&[u8], u32> = HashMap::new();
    let mut codes: Vec<u64> = Vec::with_capacity(rows.len());
    for i in 0..rows.len() {
        let next = places.len() as u32;
        codes.push(u64::from(*places.entry(rows.row(i)).or_insert(next)));
    }
    sum(&codes)
}

/// Numbers whose hashes begin in one of 2^14 groups, which is where the proved map looks for 10^5 values.
fn colliding(count: usize) {
    let of_one_group = (0u64..).filter(|value| {
        let mut hasher = Fold::default();
        hasher.write_u64(*value);
        (hasher.finish() ^ hasher.finish() >> 32) % (1 << 14) == 0
    });
    for value in of_one_group.take(count) {
        println!("{value}");
    }
}

fn main() {
    let words: Vec<String> = env::args().collect();
    let repeats: u32 = words[2].parse().unwrap();
    if words[1] == "colliding" {
        return colliding(repeats as usize);
    }
    let mut input = Vec::new();
    io::stdin().read_to_end(&mut input).unwrap();
    let count = number_at(&input, 0) as usize;
    let (mut values, mut texts) = (Vec::new(), Texts { bytes: Vec::new(), offsets: vec![0] });
    if words[1].starts_with("numbers") {
        values = (0..count).map(|i| number_at(&input, 8 + 8 * i)).collect();
    } else {
        texts.offsets.extend((0..count).map(|i| number_at(&input, 8 + 8 * i) as u32));
        texts.bytes.extend_from_slice(&input[8 + 8 * count..]);
    }
    let (mut best, mut answer) = (u128::MAX, 0);
    for _ in 0..repeats {
        let begin = Instant::now();
        answer = match words[1].as_str() {
            "numbers" => numbers_by_table(&values),
            "numbers-fold" => numbers_by::<BuildHasherDefault<Fold>>(&values),
            "numbers-map" => numbers_by::<std::collections::hash_map::RandomState>(&values),
            "texts" => texts_by_table(&texts),
            _ => texts_by_map(&texts),
        };
        best = best.min(begin.elapsed().as_nanos());
    }
    println!("{best} {answer}");
}
