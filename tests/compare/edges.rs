//! Sound images at the edges of the shelf form's rules, by name.

use crate::shelf::{directory, File, Shelf, CYCLIC, LINEAR, TRANSPARENT};

/// 3F00, 7F20, 5F40 below it, and a file of each structure in each.
pub fn base() -> Shelf {
    let mut shelf = Shelf::bare();
    shelf.directories.push(directory(0x7F20, 0));
    shelf.directories.push(directory(0x5F40, 1));
    for (number, first) in [0x2F00, 0x6F00, 0x4F00].into_iter().enumerate() {
        let number = number as u8;
        shelf.files.push(File::new(first + 1, number, TRANSPARENT, 0, 9));
        shelf.files.push(File::new(first + 2, number, LINEAR, 2, 6));
        shelf.files.push(File::new(first + 3, number, CYCLIC, 3, 6));
    }
    shelf
}

pub fn with(change: impl FnOnce(&mut Shelf)) -> Vec<u8> {
    let mut shelf = base();
    change(&mut shelf);
    shelf.to_bytes()
}

fn with_file(change: impl FnOnce(&mut File)) -> Vec<u8> {
    with(|shelf| change(&mut shelf.files[5]))
}

pub fn images() -> Vec<(&'static str, Vec<u8>)> {
    let mut list = vec![
        ("base", base().to_bytes()),
        ("bare", Shelf::bare().to_bytes()),
        ("codes all zero", with(|shelf| shelf.codes = vec![[0; 20]; 2])),
        ("flags C1 and C0", with(|shelf| shelf.codes[0][0] = 0xC1)),
        ("attempts 0 and 10", with(|shelf| shelf.codes[1][1] = 0)),
        ("characteristics 7F", with(|shelf| shelf.directories[2][3] = 0x7F)),
        ("32 directories", with(thirty_two_directories)),
        ("one 5F40 below each of two", with(twins_apart)),
        ("5F below the second 7F", with(|shelf| shelf.directories.push(directory(0x5F41, 1)))),
        ("no files", with(|shelf| shelf.files.clear())),
        ("200 files", with(two_hundred_files)),
        ("24,576 bytes", with(|shelf| fill_up(shelf, 24_576))),
        ("one identifier in two directories", with(same_identifier_apart)),
    ];
    list.extend(file_edges());
    list
}

fn file_edges() -> Vec<(&'static str, Vec<u8>)> {
    vec![
        ("size 1", with(|shelf| shelf.files[0].resize(1))),
        ("254 records", with_file(|file| file.resize(3 * 254))),
        ("1 record", with_file(|file| file.resize(3))),
        ("record length 255", with_file(|file| long_records(file, 2))),
        ("record length 1", with_file(|file| file.entry[4] = 1)),
        ("increase 40", with_file(|file| file.entry[5] = 0x40)),
        ("status 00", with_file(|file| file.entry[9] = 0)),
        ("status 05", with_file(|file| file.entry[9] = 5)),
        ("every level F", with_file(|file| file.entry[6..9].copy_from_slice(&[0xFF, 0xF0, 0xFF]))),
        ("top last", with_file(|file| file.entry[12] = 1)),
        ("top 253", with_file(|file| {
            file.resize(3 * 254);
            file.entry[12] = 253;
        })),
    ]
}

fn long_records(file: &mut File, records: usize) {
    file.entry[4] = 255;
    file.resize(255 * records);
}

fn thirty_two_directories(shelf: &mut Shelf) {
    while shelf.directories.len() < 32 {
        let number = shelf.directories.len() as u16;
        shelf.directories.push(directory(0x7F20 + number, 0));
    }
}

fn twins_apart(shelf: &mut Shelf) {
    shelf.directories.push(directory(0x7F21, 0));
    shelf.directories.push(directory(0x5F40, 3));
}

fn same_identifier_apart(shelf: &mut Shelf) {
    shelf.directories.push(directory(0x7F21, 0));
    shelf.files.push(File::new(0x6F01, 3, TRANSPARENT, 0, 4));
}

fn two_hundred_files(shelf: &mut Shelf) {
    while shelf.files.len() < 200 {
        let number = shelf.files.len() as u16;
        shelf.files.push(File::new(0x6F00 + number, 1, TRANSPARENT, 0, 1));
    }
}

/// The first file grows until the sizes sum to `sum`.
pub fn fill_up(shelf: &mut Shelf, sum: usize) {
    let others: usize = shelf.files[1..].iter().map(|file| file.bytes.len()).sum();
    shelf.files[0].resize(sum - others);
}
