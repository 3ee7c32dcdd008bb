//! Images broken in exactly one rule of the shelf form. The rules' names:
//! C codes, R directories, F files, B bytes; 0.1 the count, 0.2 the section
//! cut short, other numbers the rules on entries in the paper's order.

use crate::edges::{base, fill_up, with};
use crate::shelf::{directory, File, Shelf, CYCLIC, LINEAR, TRANSPARENT};

pub struct Broken {
    pub rule: &'static str,
    pub image: Vec<u8>,
}

fn broken(rule: &'static str, image: Vec<u8>) -> Broken {
    Broken { rule, image }
}

/// The base with one byte of an entry set.
fn code(rule: &'static str, number: usize, place: usize, value: u8) -> Broken {
    broken(rule, with(|shelf| shelf.codes[number][place] = value))
}

fn folder(rule: &'static str, number: usize, place: usize, value: u8) -> Broken {
    broken(rule, with(|shelf| shelf.directories[number][place] = value))
}

fn file(rule: &'static str, number: usize, place: usize, value: u8) -> Broken {
    broken(rule, with(|shelf| shelf.files[number].entry[place] = value))
}

fn added(rule: &'static str, entries: &[[u8; 8]]) -> Broken {
    broken(rule, with(|shelf| shelf.directories.extend(entries)))
}

fn new_file(rule: &'static str, file: File) -> Broken {
    broken(rule, with(|shelf| shelf.files.push(file)))
}

fn cut(rule: &'static str, length: usize) -> Broken {
    broken(rule, base().to_bytes()[..length].to_vec())
}

pub fn images() -> Vec<Broken> {
    let mut list = codes();
    list.extend(directories());
    list.extend(files());
    list.extend(shapes());
    list.extend(contents());
    list
}

fn codes() -> Vec<Broken> {
    vec![
        broken("C0.1", with(|shelf| shelf.codes.push([0; 20]))),
        broken("C0.1", with(|shelf| shelf.codes.truncate(1))),
        broken("C0.1", with(|shelf| shelf.codes.clear())),
        broken("C0.2", Vec::new()),
        cut("C0.2", 1),
        cut("C0.2", 2),
        cut("C0.2", 41),
        code("C1", 0, 0, 0xC2),
        code("C1", 0, 0, 0xE0),
        code("C1", 1, 0, 0xC1),
        code("C1", 1, 0, 0xD0),
        code("C2", 0, 1, 4),
        code("C2", 1, 1, 0xFF),
        code("C3", 0, 2, 11),
        code("C3", 1, 2, 0xFF),
        code("C4", 0, 3, 1),
        code("C4", 1, 3, 0x80),
    ]
}

fn many_directories(shelf: &mut Shelf) {
    while shelf.directories.len() < 33 {
        let number = shelf.directories.len() as u16;
        shelf.directories.push(directory(0x7F20 + number, 0));
    }
}

fn directories() -> Vec<Broken> {
    let none = |shelf: &mut Shelf| {
        shelf.directories.clear();
        shelf.files.clear();
    };
    vec![
        broken("R0.1", with(none)),
        broken("R0.1", with(many_directories)),
        cut("R0.2", 42),
        cut("R0.2", 43),
        cut("R0.2", 44),
        cut("R0.2", 67),
        folder("R1", 0, 3, 0x93),
        folder("R1", 2, 3, 0x80),
        folder("R2", 0, 7, 1),
        folder("R2", 1, 7, 0xFF),
        folder("R3", 0, 1, 0x01),
        folder("R4", 0, 2, 1),
        folder("R4", 0, 2, 0xFF),
        added("R5", &[directory(0x5F50, 4), directory(0x7F22, 0)]),
        added("R5", &[directory(0x7F22, 9)]),
        added("R6", &[directory(0x5F22, 0)]),
        added("R6", &[directory(0x3F00, 0)]),
        added("R6", &[directory(0x6F22, 0)]),
        added("R6", &[directory(0x7F22, 1)]),
        added("R6", &[directory(0x4F22, 1)]),
        added("R7", &[directory(0x5F41, 2)]),
        added("R8", &[directory(0x7F20, 0)]),
        added("R8", &[directory(0x5F41, 1), directory(0x5F40, 1)]),
    ]
}

fn many_files(shelf: &mut Shelf) {
    while shelf.files.len() < 201 {
        let number = shelf.files.len() as u16;
        shelf.files.push(File::new(0x6F00 + number, 1, TRANSPARENT, 0, 1));
    }
}

fn files() -> Vec<Broken> {
    vec![
        broken("F0.1", with(many_files)),
        cut("F0.2", 68),
        cut("F0.2", 69),
        cut("F0.2", 70),
        cut("F0.2", 195),
        new_file("F1", File::new(0x6F10, 3, TRANSPARENT, 0, 4)),
        new_file("F1", File::new(0x2F10, 255, LINEAR, 2, 4)),
        new_file("F2", File::new(0x6F10, 1, 2, 2, 4)),
        new_file("F2", File::new(0x6F10, 1, 4, 1, 1)),
        file("F3", 4, 13, 1),
        file("F3", 0, 13, 0x80),
        new_file("F4", File::new(0x6F10, 0, TRANSPARENT, 0, 4)),
        new_file("F4", File::new(0x2F10, 1, LINEAR, 2, 4)),
        new_file("F4", File::new(0x4F10, 1, LINEAR, 2, 4)),
        new_file("F4", File::new(0x6F10, 2, CYCLIC, 2, 4)),
        new_file("F4", File::new(0x7F10, 1, TRANSPARENT, 0, 4)),
        new_file("F5", File::new(0x6F01, 1, LINEAR, 2, 4)),
        new_file("F5", File::new(0x4F02, 2, LINEAR, 2, 4)),
        file("F9", 3, 9, 0x03),
        file("F9", 4, 9, 0x09),
        file("F9", 5, 9, 0x80),
        file("F10", 3, 7, 0x01),
        file("F10", 5, 7, 0x1F),
    ]
}

fn shapes() -> Vec<Broken> {
    let rows = |length, size| File::new(0x6F10, 1, LINEAR, length, size);
    vec![
        new_file("F6", File::new(0x6F10, 1, TRANSPARENT, 0, 0)),
        new_file("F6", File::new(0x6F10, 1, TRANSPARENT, 1, 1)),
        new_file("F7", rows(0, 4)),
        new_file("F7", rows(0, 0)),
        new_file("F7", rows(3, 0)),
        new_file("F7", rows(3, 4)),
        new_file("F7", rows(5, 4)),
        new_file("F7", rows(1, 255)),
        new_file("F7", rows(3, 3 * 255)),
        new_file("F7", File::new(0x6F10, 1, CYCLIC, 2, 2 * 255)),
        file("F8", 3, 5, 0x40),
        new_file("F8", increasing(File::new(0x6F10, 1, LINEAR, 3, 6), 0x40)),
        new_file("F8", increasing(File::new(0x6F10, 1, CYCLIC, 2, 6), 0x40)),
        new_file("F8", increasing(File::new(0x6F10, 1, CYCLIC, 3, 6), 0x41)),
        new_file("F8", increasing(File::new(0x6F10, 1, CYCLIC, 3, 6), 0x01)),
        file("F11", 3, 12, 1),
        file("F11", 4, 12, 1),
        file("F11", 5, 12, 2),
        file("F11", 5, 12, 0xFF),
    ]
}

fn increasing(mut file: File, byte: u8) -> File {
    file.entry[5] = byte;
    file
}

/// Sizes that sum to 65,536 and 63 more, beside a count of 63: breaks the sum
/// and the limit, unless the sum is taken in 16 bits.
fn wrapped_sum() -> Vec<u8> {
    let mut shelf = base();
    let mut bytes: Vec<u8> = Vec::new();
    for (number, size) in [0x8000_u16, 0x8000].into_iter().enumerate() {
        let mut file = File::new(0x6F10 + number as u16, 1, TRANSPARENT, 0, 0);
        file.entry[10..12].copy_from_slice(&size.to_be_bytes());
        shelf.files.push(file);
    }
    bytes.extend(shelf.without_bytes());
    let sum: usize = shelf.files.iter().map(|file| file.bytes.len()).sum();
    bytes.extend((sum as u16).to_be_bytes());
    bytes.extend(vec![0; sum]);
    bytes
}

fn contents() -> Vec<Broken> {
    let whole = base().to_bytes();
    let start = base().without_bytes().len();
    let miscounted = |change: isize| {
        let mut bytes = whole.clone();
        let length = (whole.len() - start - 2).wrapping_add_signed(change);
        bytes[start..start + 2].copy_from_slice(&(length as u16).to_be_bytes());
        bytes.resize(start + 2 + length, 0);
        bytes
    };
    vec![
        broken("B0.1", miscounted(1)),
        broken("B0.1", miscounted(-1)),
        broken("B0.1", wrapped_sum()),
        broken("B0.2", with(|shelf| fill_up(shelf, 24_577))),
        cut("B0.3", start),
        cut("B0.3", start + 1),
        cut("B0.3", start + 2),
        cut("B0.3", whole.len() - 1),
        broken("B0.4", [whole.clone(), vec![0]].concat()),
        broken("B0.4", [whole.clone(), whole].concat()),
    ]
}
