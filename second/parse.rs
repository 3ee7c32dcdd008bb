//! From the shelf form to the owned structures.

use crate::rules::{self, rule, Broken, Header};
use crate::shelf::{Body, Code, Directory, ElementaryFile, Image};

struct Shelf<'a> {
    rest: &'a [u8],
}

impl<'a> Shelf<'a> {
    fn take(&mut self, count: usize) -> Option<&'a [u8]> {
        let (taken, rest) = self.rest.split_at_checked(count)?;
        self.rest = rest;
        Some(taken)
    }

    fn number(&mut self) -> Option<usize> {
        self.take(2).map(|bytes| usize::from(number(bytes, 0)))
    }
}

fn number(entry: &[u8], place: usize) -> u16 {
    u16::from_be_bytes([entry[place], entry[place + 1]])
}

fn eight(entry: &[u8], place: usize) -> [u8; 8] {
    std::array::from_fn(|k| entry[place + k])
}

pub fn image(bytes: &[u8]) -> Result<Image, Broken> {
    let mut shelf = Shelf { rest: bytes };
    let codes = codes(&mut shelf)?;
    let directories = directories(&mut shelf)?;
    let headers = headers(&mut shelf, &directories)?;
    let files = files(&mut shelf, headers)?;
    rule("B0.4", shelf.rest.is_empty())?;
    Ok(Image { codes, directories, files })
}

fn codes(shelf: &mut Shelf) -> Result<Vec<Code>, Broken> {
    let count = shelf.number().ok_or("C0.2")?;
    rule("C0.1", count == 2)?;
    let entries = shelf.take(20 * count).ok_or("C0.2")?;
    let mut codes = Vec::new();
    for (number, entry) in entries.chunks(20).enumerate() {
        rules::code(number, entry)?;
        codes.push(Code {
            initialised: entry[0] & 0x80 != 0,
            unblock_initialised: entry[0] & 0x40 != 0,
            disabled: entry[0] & 0x01 != 0,
            attempts: entry[1],
            unblock_attempts: entry[2],
            chv: eight(entry, 4),
            unblock: eight(entry, 12),
        });
    }
    Ok(codes)
}

fn directories(shelf: &mut Shelf) -> Result<Vec<Directory>, Broken> {
    let count = shelf.number().ok_or("R0.2")?;
    rule("R0.1", (1..=32).contains(&count))?;
    let entries = shelf.take(8 * count).ok_or("R0.2")?;
    let mut directories = Vec::new();
    for entry in entries.chunks(8) {
        rule("R1", entry[3] & 0x80 == 0)?;
        rule("R2", entry[7] == 0)?;
        directories.push(Directory {
            identifier: number(entry, 0),
            parent: usize::from(entry[2]),
            characteristics: entry[3],
            free_memory: number(entry, 4),
            number_of_codes: entry[6],
        });
    }
    for directory in directories.iter().take(1) {
        rules::master_file(directory)?;
    }
    for number in 1..directories.len() {
        rules::child(&directories, number)?;
    }
    Ok(directories)
}

fn headers(shelf: &mut Shelf, directories: &[Directory]) -> Result<Vec<Header>, Broken> {
    let count = shelf.number().ok_or("F0.2")?;
    rule("F0.1", count <= 200)?;
    let entries = shelf.take(14 * count).ok_or("F0.2")?;
    let headers: Vec<Header> = entries.chunks(14).map(header).collect();
    for number in 0..headers.len() {
        rules::file(&headers, number, directories)?;
    }
    Ok(headers)
}

fn header(entry: &[u8]) -> Header {
    Header {
        identifier: number(entry, 0),
        directory: usize::from(entry[2]),
        structure: entry[3],
        record_length: usize::from(entry[4]),
        increase: entry[5],
        access: [entry[6], entry[7], entry[8]],
        status: entry[9],
        size: usize::from(number(entry, 10)),
        top: usize::from(entry[12]),
        spare: entry[13],
    }
}

fn files(shelf: &mut Shelf, headers: Vec<Header>) -> Result<Vec<ElementaryFile>, Broken> {
    let count = shelf.number().ok_or("B0.3")?;
    let sum: usize = headers.iter().map(|header| header.size).sum();
    rule("B0.1", count == sum)?;
    rule("B0.2", sum <= 24_576)?;
    let mut files = Vec::new();
    for header in headers {
        let bytes = shelf.take(header.size).ok_or("B0.3")?;
        files.push(ElementaryFile {
            identifier: header.identifier,
            directory: header.directory,
            increase: header.increase,
            access: header.access,
            valid: header.status & 1 != 0,
            readable_when_invalidated: header.status & 4 != 0,
            body: body(&header, bytes),
        });
    }
    Ok(files)
}

fn body(header: &Header, bytes: &[u8]) -> Body {
    if header.structure == 0 {
        return Body::Transparent(bytes.to_vec());
    }
    let places = bytes.chunks(header.record_length).map(<[u8]>::to_vec);
    if header.structure == 1 {
        return Body::Linear(places.collect());
    }
    let mut records: std::collections::VecDeque<Vec<u8>> = places.collect();
    records.rotate_left(header.top);
    Body::Cyclic { records, top: header.top }
}
