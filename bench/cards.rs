//! Images for the benchmark: the same five files in each, and others around them.

/// The sizes measured, in files.
pub const SIZES: [usize; 4] = [5, 20, 60, 200];

/// CHV1, presented at the start of each list.
pub const CHV1: [u8; 8] = *b"1234\xFF\xFF\xFF\xFF";

/// The working files stand in 7F20: identifiers by structure.
pub const TRANSPARENT: [u8; 2] = [0x6F, 0x46];
pub const LINEAR: [u8; 2] = [0x6F, 0x3A];
pub const COUNTER: [u8; 2] = [0x6F, 0x39];
pub const CYCLIC: [u8; 2] = [0x6F, 0x44];
pub const LINEAR_RECORDS: u8 = 10;
pub const RECORD: usize = 28;

/// Identifier and parent's number.
const DIRECTORIES: [([u8; 2], u8); 10] = [
    ([0x3F, 0x00], 0),
    ([0x7F, 0x10], 0),
    ([0x7F, 0x20], 0),
    ([0x7F, 0x21], 0),
    ([0x5F, 0x30], 2),
    ([0x5F, 0x31], 2),
    ([0x7F, 0x22], 0),
    ([0x5F, 0x40], 3),
    ([0x5F, 0x3B], 1),
    ([0x7F, 0x23], 0),
];
const WORKING: u8 = 2;

struct File {
    identifier: [u8; 2],
    directory: u8,
    structure: u8,
    length: u8,
    increase: u8,
    access: [u8; 3],
    bytes: Vec<u8>,
}

fn directories(files: usize) -> usize {
    match files {
        0..=5 => 3,
        6..=20 => 4,
        21..=60 => 6,
        _ => DIRECTORIES.len(),
    }
}

fn filling(seed: usize, count: usize) -> Vec<u8> {
    (0..count).map(|i| (seed.wrapping_mul(151) + i * 59 + (i * i) / 7) as u8).collect()
}

/// Access by CHV1 to everything.
fn working(identifier: [u8; 2], structure: u8, length: u8, increase: u8, bytes: Vec<u8>) -> File {
    File { identifier, directory: WORKING, structure, length, increase, access: [0x11, 0x10, 0x11], bytes }
}

/// Record r starts with r and then A0 + r.
fn linear_bytes() -> Vec<u8> {
    let mut bytes = Vec::new();
    for r in 1..=LINEAR_RECORDS {
        bytes.extend([r, 0xA0 + r, 0x31, 0x32]);
        bytes.extend(filling(usize::from(r), RECORD - 4));
    }
    bytes
}

fn four() -> Vec<File> {
    vec![
        working(TRANSPARENT, 0, 0, 0, filling(1, 64)),
        working(LINEAR, 1, RECORD as u8, 0, linear_bytes()),
        working(COUNTER, 3, 3, 0x40, vec![0; 30]),
        working(CYCLIC, 3, RECORD as u8, 0, filling(2, 5 * RECORD)),
    ]
}

/// File k of those around the working files; the low byte differs within a directory.
fn other(k: usize, directories: usize) -> File {
    let directory = k % directories;
    let high = match DIRECTORIES[directory].0[0] {
        0x3F => 0x2F,
        0x7F => 0x6F,
        _ => 0x4F,
    };
    let (structure, length, increase, size) = match k % 4 {
        0 => (0, 0, 0, 60 + k * 7 % 120),
        1 => (1, 14 + k % 20, 0, (14 + k % 20) * (4 + k % 5)),
        2 => (0, 0, 0, 10 + k % 40),
        _ => (3, 3, if k % 8 == 3 { 0x40 } else { 0 }, 3 * (5 + k % 11)),
    };
    File {
        identifier: [high, 0x80 + (k / directories) as u8],
        directory: directory as u8,
        structure,
        length: length as u8,
        increase,
        access: [[0x04, 0x00, 0x44], [0x14, 0x00, 0x44], [0x11, 0x10, 0x44]][k % 3],
        bytes: filling(k, size),
    }
}

/// 2FE2 first, the four working files in the middle.
fn all_files(count: usize) -> Vec<File> {
    let others = count - 5;
    let mut files = vec![File {
        identifier: [0x2F, 0xE2],
        directory: 0,
        structure: 0,
        length: 0,
        increase: 0,
        access: [0x04, 0x00, 0x44],
        bytes: vec![0xFF; 10],
    }];
    files.extend((0..others / 2).map(|k| other(k, directories(count))));
    files.extend(four());
    files.extend((others / 2..others).map(|k| other(k, directories(count))));
    files
}

fn two(number: usize) -> [u8; 2] {
    (number as u16).to_be_bytes()
}

fn code(chv: [u8; 8], unblock: u8) -> Vec<u8> {
    let mut entry = vec![0xC0, 3, 10, 0];
    entry.extend(chv);
    entry.extend([unblock; 8]);
    entry
}

/// An image of that many files, at least 5.
pub fn image(count: usize) -> Vec<u8> {
    let mut image = two(2).to_vec();
    image.extend(code(CHV1, b'1'));
    image.extend(code(*b"5678\xFF\xFF\xFF\xFF", b'2'));
    image.extend(two(directories(count)));
    for (identifier, parent) in &DIRECTORIES[..directories(count)] {
        image.extend([identifier[0], identifier[1], *parent, 0x13, 0, 0, 4, 0]);
    }
    let files = all_files(count);
    image.extend(two(files.len()));
    for file in &files {
        image.extend(file.identifier);
        image.extend([file.directory, file.structure, file.length, file.increase]);
        image.extend(file.access);
        image.push(1);
        image.extend(two(file.bytes.len()));
        image.extend([0, 0]);
    }
    image.extend(two(files.iter().map(|file| file.bytes.len()).sum()));
    for file in &files {
        image.extend(&file.bytes);
    }
    image
}
