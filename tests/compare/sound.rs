//! Sound images of many shapes.

use crate::prng::Prng;
use crate::shelf::{code, directory, File, Shelf, CYCLIC, LINEAR, TRANSPARENT};

const MOST_BYTES: usize = 24_576;

pub fn image(prng: &mut Prng) -> Shelf {
    let most = |prng: &mut Prng, ranges: &[(usize, (usize, usize))]| {
        let (low, high) = prng.weighted(ranges);
        prng.between(low, high)
    };
    let directories = most(prng, &[(75, (1, 5)), (20, (6, 31)), (5, (32, 32))]);
    let counts = [(2, (0, 0)), (70, (3, 12)), (22, (13, 60)), (3, (61, 199)), (3, (200, 200))];
    let files = most(prng, &counts);
    let mut room = prng.weighted(&[(60, 600), (30, 4_000), (10, MOST_BYTES)]);
    let mut shelf = Shelf {
        codes: vec![one_code(prng, true), one_code(prng, false)],
        ..Shelf::default()
    };
    add_directories(prng, &mut shelf, directories);
    for left in (0..files).rev() {
        // One byte at least is kept back for each file still to come.
        let size = room.saturating_sub(left).max(1);
        let file = one_file(prng, &shelf, size);
        room = room.saturating_sub(file.bytes.len());
        shelf.files.push(file);
    }
    shelf
}

fn one_code(prng: &mut Prng, first: bool) -> [u8; 20] {
    let values: [[u8; 8]; 3] = [*b"1234\xFF\xFF\xFF\xFF", *b"12345678", [0; 8]];
    let (chv, unblock) = (prng.pick(&values), prng.pick(&[*b"11111111", *b"12345678"]));
    let mut entry = code(&chv, &unblock);
    entry[0] = prng.weighted(&[(80, 0xC0), (8, 0x80), (6, 0x40), (6, 0x00)]);
    if first && prng.percent(20) {
        entry[0] |= 1;
    }
    entry[1] = prng.weighted(&[(60, 3), (15, 2), (15, 1), (10, 0)]);
    entry[2] = prng.weighted(&[(50, 10), (20, 2), (15, 1), (15, 0)]);
    entry
}

fn add_directories(prng: &mut Prng, shelf: &mut Shelf, count: usize) {
    for number in 0..count {
        let (identifier, parent) = if number == 0 { (0x3F00, 0) } else { place(prng, shelf) };
        let mut entry = directory(identifier, parent as u8);
        let any = prng.byte();
        entry[3] = prng.byte() & 0x7F;
        entry[4] = prng.weighted(&[(50, 0), (50, any)]);
        entry[5] = prng.byte();
        entry[6] = prng.weighted(&[(80, 4), (20, any)]);
        shelf.directories.push(entry);
    }
}

/// An identifier that the parent does not yet have below it.
fn place(prng: &mut Prng, shelf: &Shelf) -> (u16, usize) {
    let deep: Vec<usize> = (1..shelf.directories.len())
        .filter(|number| shelf.directories[*number][0] == 0x7F)
        .collect();
    let parent = if deep.is_empty() || prng.percent(45) { 0 } else { prng.pick(&deep) };
    let first = if parent == 0 { 0x7F00 } else { 0x5F00 };
    loop {
        let identifier = first + prng.between(0x10, 0x50) as u16;
        let taken = (1..shelf.directories.len()).any(|number| {
            shelf.parent(number) == parent && shelf.identifier(number) == identifier
        });
        if !taken {
            return (identifier, parent);
        }
    }
}

fn one_file(prng: &mut Prng, shelf: &Shelf, room: usize) -> File {
    let directory = prng.below(shelf.directories.len());
    let identifier = file_identifier(prng, shelf, directory);
    let structure = if room < 3 {
        TRANSPARENT
    } else {
        prng.weighted(&[(35, TRANSPARENT), (35, LINEAR), (30, CYCLIC)])
    };
    let (length, size) = shape(prng, structure, room);
    let mut file = File::new(identifier, directory as u8, structure, length as u8, size);
    if structure == CYCLIC {
        file.entry[12] = prng.below(file.records()) as u8;
        if length == 3 && prng.percent(75) {
            file.entry[5] = 0x40;
        }
    }
    file.entry[6] = level(prng) << 4 | level(prng);
    file.entry[7] = level(prng) << 4;
    file.entry[8] = level(prng) << 4 | level(prng);
    file.entry[9] = prng.weighted(&[(65, 1), (13, 5), (10, 0), (12, 4)]);
    fill(prng, &mut file);
    file
}

fn file_identifier(prng: &mut Prng, shelf: &Shelf, directory: usize) -> u16 {
    let first = match shelf.directories[directory][0] {
        0x3F => 0x2F00,
        0x7F => 0x6F00,
        _ => 0x4F00,
    };
    loop {
        let identifier = first + u16::from(prng.byte());
        let taken = shelf
            .files
            .iter()
            .any(|file| file.directory() == directory && file.identifier() == identifier);
        if !taken {
            return identifier;
        }
    }
}

fn level(prng: &mut Prng) -> u8 {
    let any = prng.below(16) as u8;
    prng.weighted(&[(52, 0), (26, 1), (12, 2), (5, 4), (5, any)])
}

/// The record length and the size.
fn shape(prng: &mut Prng, structure: u8, room: usize) -> (usize, usize) {
    if structure == TRANSPARENT {
        let wanted = prng.weighted(&[(60, 20), (20, 300), (15, 2_000), (5, 24_576)]);
        return (0, prng.between(1, wanted.min(room)));
    }
    let lengths = [(45, 3), (25, 8), (20, 40), (10, 255)];
    let length = if structure == CYCLIC && prng.percent(65) {
        3
    } else {
        let most = prng.weighted(&lengths);
        prng.between(1, most).min(room)
    };
    let most = prng.weighted(&[(20, 1), (60, 6), (15, 30), (5, 254)]);
    let records = prng.between(1, most.min(room / length));
    (length, length * records)
}

fn fill(prng: &mut Prng, file: &mut File) {
    let palette: &[u8] = match prng.below(3) {
        0 => &[0x01, 0x02],
        1 => &[0x00, 0xFF],
        _ => &[],
    };
    for byte in file.bytes.iter_mut() {
        *byte = if palette.is_empty() { prng.byte() } else { prng.pick(palette) };
    }
}
