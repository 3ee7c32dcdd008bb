//! The shelf form's rules on single entries. A broken rule is told by name:
//! C, R, F and B stand for codes, directories, files and bytes.

use crate::shelf::Directory;

pub type Broken = &'static str;

pub fn rule(name: Broken, holds: bool) -> Result<(), Broken> {
    if holds { Ok(()) } else { Err(name) }
}

/// A file's entry before its bytes are known.
pub struct Header {
    pub identifier: u16,
    pub directory: usize,
    pub structure: u8,
    pub record_length: usize,
    pub increase: u8,
    pub access: [u8; 3],
    pub status: u8,
    pub size: usize,
    pub top: usize,
    pub spare: u8,
}

fn first_byte(identifier: u16) -> u8 {
    (identifier >> 8) as u8
}

pub fn code(number: usize, entry: &[u8]) -> Result<(), Broken> {
    let allowed = if number == 0 { 0b1100_0001 } else { 0b1100_0000 };
    rule("C1", entry[0] & !allowed == 0)?;
    rule("C2", entry[1] <= 3)?;
    rule("C3", entry[2] <= 10)?;
    rule("C4", entry[3] == 0)
}

pub fn master_file(directory: &Directory) -> Result<(), Broken> {
    rule("R3", directory.identifier == 0x3F00)?;
    rule("R4", directory.parent == 0)
}

/// `all` holds every directory of the section, `number` is at least 1.
pub fn child(all: &[Directory], number: usize) -> Result<(), Broken> {
    let directory = &all[number];
    rule("R5", directory.parent < number)?;
    let Some(parent) = all.get(directory.parent) else {
        return Err("R5");
    };
    let first = first_byte(directory.identifier);
    if directory.parent == 0 {
        rule("R6", first == 0x7F)?;
    } else {
        let above = first_byte(parent.identifier);
        rule("R6", above != 0x7F || first == 0x5F)?;
        rule("R7", above != 0x5F)?;
    }
    let twin = all[1..number].iter().any(|earlier| {
        earlier.parent == directory.parent && earlier.identifier == directory.identifier
    });
    rule("R8", !twin)
}

pub fn file(all: &[Header], number: usize, directories: &[Directory]) -> Result<(), Broken> {
    let header = &all[number];
    rule("F1", header.directory < directories.len())?;
    rule("F2", matches!(header.structure, 0 | 1 | 3))?;
    rule("F3", header.spare == 0)?;
    if let Some(holder) = directories.get(header.directory) {
        let wanted = match first_byte(holder.identifier) {
            0x3F => 0x2F,
            0x7F => 0x6F,
            _ => 0x4F,
        };
        rule("F4", first_byte(header.identifier) == wanted)?;
    }
    let twin = all[..number].iter().any(|earlier| {
        earlier.directory == header.directory && earlier.identifier == header.identifier
    });
    rule("F5", !twin)?;
    shape(header)?;
    rule("F9", header.status & !0b101 == 0)?;
    rule("F10", header.access[1] & 0x0F == 0)
}

fn shape(header: &Header) -> Result<(), Broken> {
    let length = header.record_length;
    if header.structure == 0 {
        rule("F6", header.size >= 1 && length == 0)?;
    } else {
        rule("F7", length >= 1 && header.size % length == 0)?;
        rule("F7", (1..=254).contains(&(header.size / length.max(1))))?;
    }
    let increasing = header.structure == 3 && length == 3;
    rule("F8", header.increase == 0 || (header.increase == 0x40 && increasing))?;
    let places = if header.structure == 3 { header.size / length.max(1) } else { 1 };
    rule("F11", header.top < places)
}
