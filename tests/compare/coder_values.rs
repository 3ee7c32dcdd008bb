//! Files and values for the coders, right and wrong.

use crate::coder::Entry;
use crate::prng::Prng;

const DECODE: u8 = 0;
const ENCODE: u8 = 1;

fn digits(prng: &mut Prng, count: usize) -> Vec<u8> {
    (0..count).map(|_| prng.below(10) as u8).collect()
}

fn packed(halves: &[u8]) -> Vec<u8> {
    halves.chunks(2).map(|pair| pair[0] | pair[1] << 4).collect()
}

/// A file that decodes, built by the paper's words.
fn valid_file(prng: &mut Prng, kind: u8) -> Vec<u8> {
    match kind {
        1 => {
            let count = prng.between(1, 20);
            let mut halves = digits(prng, count);
            halves.resize(20, 15);
            packed(&halves)
        }
        2 => valid_imsi(prng),
        3 => {
            let list = digits(prng, 5);
            packed(&[list[0], list[1], list[2], 15, list[3], list[4]])
        }
        4 => {
            let length = prng.between(2, 8);
            prng.bytes(length)
        }
        5 => {
            let mut file = vec![prng.below(4) as u8];
            let count = prng.between(0, 16);
            file.extend((0..count).map(|_| prng.below(255) as u8));
            file.resize(17, 0xFF);
            file
        }
        _ => {
            let mut file = vec![mode(prng), prng.byte(), prng.byte()];
            if prng.percent(70) {
                file.push((prng.byte() & 0xF0) + prng.pick(&[2, 3]));
                let more = prng.below(4);
                file.extend(prng.bytes(more));
            }
            file
        }
    }
}

fn valid_imsi(prng: &mut Prng) -> Vec<u8> {
    let count = prng.between(1, 15);
    let mut halves = vec![if count % 2 == 1 { 9 } else { 1 }];
    halves.extend(digits(prng, count));
    halves.resize(count / 2 * 2 + 2, 15);
    let mut file = vec![halves.len() as u8 / 2];
    file.extend(packed(&halves));
    file.resize(9, 0xFF);
    file
}

fn mode(prng: &mut Prng) -> u8 {
    prng.pick(&[0x00, 0x80, 0x01, 0x81, 0x02, 0x04])
}

/// A service's number around the end of the table.
fn service(prng: &mut Prng, length: usize) -> [u8; 4] {
    let end = 4 * length;
    let any = prng.next() as u32;
    let within = prng.between(1, end.max(1)) as u32;
    let near = end as u32 + prng.below(3) as u32;
    prng.weighted(&[(70, within), (15, near), (5, 0), (5, any), (5, 0x0001_0000 + within)])
        .to_be_bytes()
}

fn value(prng: &mut Prng, kind: u8, operation: u8, file: &[u8]) -> Vec<u8> {
    if operation != ENCODE {
        return if kind == 4 { service(prng, file.len()).to_vec() } else { Vec::new() };
    }
    match kind {
        1 => {
            let count = prng.between(1, 20);
            digits(prng, count)
        }
        2 => {
            let count = prng.between(1, 15);
            digits(prng, count)
        }
        3 if prng.percent(10) => Vec::new(),
        3 => digits(prng, 5),
        4 => [&service(prng, file.len())[..], &[prng.below(3) as u8]].concat(),
        5 => {
            let count = prng.between(0, 16);
            let mut list = vec![prng.below(4) as u8];
            list.extend((0..count).map(|_| prng.below(255) as u8));
            list
        }
        _ if file.len() == 3 => vec![mode(prng), 0],
        _ => vec![mode(prng), prng.pick(&[2, 3])],
    }
}

pub fn valid(prng: &mut Prng, kind: u8, operation: u8) -> Entry {
    let file = valid_file(prng, kind);
    let value = value(prng, kind, operation, &file);
    Entry { kind, operation, file, value }
}

/// The shortest valid file of its kind, filled up.
fn shortest(kind: u8) -> Vec<u8> {
    let (start, length): (&[u8], usize) = match kind {
        1 => (&[0xF8], 10),
        2 => (&[0x01, 0x79], 9),
        3 => (&[0x42, 0xF6, 0x18], 3),
        4 => (&[0x02, 0x00], 2),
        5 => (&[0x01], 17),
        _ => (&[0x01, 0x00, 0x01], 3),
    };
    let mut file = start.to_vec();
    file.resize(length, 0xFF);
    file
}

/// The pairs of places of the shortest valid file of a kind.
pub fn two_places(kind: u8) -> Vec<(u8, usize, usize)> {
    let length = shortest(kind).len();
    (0..length).flat_map(|one| (one + 1..length).map(move |two| (kind, one, two))).collect()
}

/// The shortest valid file of a kind with two other bytes, to be decoded.
pub fn two_changed(kind: u8, one: usize, two: usize, bytes: usize) -> Entry {
    let mut file = shortest(kind);
    file[one] = (bytes >> 8) as u8;
    file[two] = bytes as u8;
    let value = if kind == 4 { (bytes as u32 % 9).to_be_bytes().to_vec() } else { Vec::new() };
    Entry { kind, operation: DECODE, file, value }
}

/// All one-byte changes of valid files and a sample of two-byte changes.
pub fn changed(prng: &mut Prng) -> Vec<Entry> {
    let mut list = Vec::new();
    for kind in 1..=6 {
        let mut first = valid(prng, kind, DECODE);
        first.file = shortest(kind);
        for sound in [first, valid(prng, kind, DECODE), valid(prng, kind, DECODE)] {
            one_byte(&sound, &mut list);
        }
        for _ in 0..1_000 {
            let mut entry = valid(prng, kind, DECODE);
            for _ in 0..2 {
                let place = prng.below(entry.file.len());
                entry.file[place] = prng.byte();
            }
            list.push(entry);
        }
    }
    list
}

fn one_byte(sound: &Entry, list: &mut Vec<Entry>) {
    for place in 0..sound.file.len() {
        for byte in 0..=255 {
            let mut entry = sound.clone();
            entry.file[place] = byte;
            list.push(entry);
        }
    }
}

/// A case of any kind and operation, right in about half of them.
pub fn random(prng: &mut Prng) -> Entry {
    let (kind, operation) = (prng.between(1, 6) as u8, prng.pick(&[DECODE, ENCODE]));
    let mut entry = valid(prng, kind, operation);
    match prng.below(13) {
        12 => entry.file = vec![prng.pick(&[0x00, 0xFF]); entry.file.len()],
        0 => entry.file = other_length(prng, &entry.file),
        1 => entry.file = prng.bytes(entry.file.len()),
        2 => entry.value = other_length(prng, &entry.value),
        3 => entry.value = prng.bytes(entry.value.len()),
        4 if !entry.value.is_empty() => {
            let place = prng.below(entry.value.len());
            entry.value[place] = prng.pick(&[0x0A, 0x0F, 0xFF, 0x03, 0x10, 0x80]);
        }
        5 if prng.percent(30) => entry.kind = prng.pick(&[0, 7, 8, 255]),
        6 if prng.percent(30) => entry.operation = prng.pick(&[2, 3, 128, 255]),
        7 => {
            entry.file = other_length(prng, &entry.file);
            entry.value = other_length(prng, &entry.value);
        }
        _ => {}
    }
    entry
}

fn other_length(prng: &mut Prng, bytes: &[u8]) -> Vec<u8> {
    let mut bytes = bytes.to_vec();
    let length = match prng.below(6) {
        0 => bytes.len() + 1,
        1 => bytes.len().saturating_sub(1),
        2 => prng.below(4),
        3 => prng.between(20, 300),
        _ => prng.below(24),
    };
    let fill = prng.pick(&[0x00, 0x01, 0xFF]);
    bytes.resize(length, fill);
    bytes
}
