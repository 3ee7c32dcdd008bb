//! The lists of commands: four that set out, then 96 of one family.

use crate::cards::{CHV1, COUNTER, CYCLIC, LINEAR, LINEAR_RECORDS, RECORD, TRANSPARENT};

pub const SETTING_OUT: usize = 4;
pub const BODY: usize = 96;

pub struct Family {
    pub name: &'static str,
    /// The file selected before.
    file: [u8; 2],
    command: fn(usize) -> Vec<u8>,
}

pub const FAMILIES: [Family; 13] = [
    Family { name: "SELECT directory, file", file: TRANSPARENT, command: selects },
    Family { name: "STATUS", file: TRANSPARENT, command: |_| plain(0xF2, 0, 0, 22) },
    Family { name: "SELECT, GET RESPONSE", file: TRANSPARENT, command: responses },
    Family { name: "READ BINARY 16 bytes", file: TRANSPARENT, command: |i| plain(0xB0, 0, (i % 49) as u8, 16) },
    Family { name: "UPDATE BINARY 16 bytes", file: TRANSPARENT, command: |i| sent(0xD6, 0, (i % 49) as u8, &some(i, 16)) },
    Family { name: "READ RECORD 28 bytes", file: LINEAR, command: reads },
    Family { name: "UPDATE RECORD linear", file: LINEAR, command: |i| sent(0xDC, nth(i), 4, &record(nth(i))) },
    Family { name: "UPDATE RECORD cyclic", file: CYCLIC, command: |i| sent(0xDC, 0, 3, &some(i, RECORD)) },
    Family { name: "SEEK", file: LINEAR, command: |i| sent(0xA2, 0, [0, 1, 0x10, 0x11][i % 4], &record(nth(i))[..4]) },
    Family { name: "INCREASE", file: COUNTER, command: |_| sent(0x32, 0, 0, &[0, 0, 1]) },
    Family { name: "VERIFY right code", file: TRANSPARENT, command: |_| sent(0x20, 0, 1, &CHV1) },
    Family { name: "INVALIDATE, REHABILITATE", file: TRANSPARENT, command: |i| plain([0x04, 0x44][i % 2], 0, 0, 0) },
    Family { name: "SLEEP", file: TRANSPARENT, command: |_| plain(0xFA, 0, 0, 0) },
];

fn plain(instruction: u8, p1: u8, p2: u8, p3: u8) -> Vec<u8> {
    vec![0xA0, instruction, p1, p2, p3]
}

fn sent(instruction: u8, p1: u8, p2: u8, data: &[u8]) -> Vec<u8> {
    let mut command = plain(instruction, p1, p2, data.len() as u8);
    command.extend(data);
    command
}

fn select(identifier: [u8; 2]) -> Vec<u8> {
    sent(0xA4, 0, 0, &identifier)
}

fn some(seed: usize, count: usize) -> Vec<u8> {
    (0..count).map(|i| (seed * 37 + i * 11) as u8).collect()
}

/// Records 1 to 10 in turn.
fn nth(i: usize) -> u8 {
    (i * 7 % usize::from(LINEAR_RECORDS)) as u8 + 1
}

/// A linear record keeps its start, which SEEK looks for.
fn record(r: u8) -> Vec<u8> {
    let mut bytes = vec![r, 0xA0 + r, 0x31, 0x32];
    bytes.extend(some(usize::from(r), RECORD - 4));
    bytes
}

fn selects(i: usize) -> Vec<u8> {
    select([[0x7F, 0x10], [0x7F, 0x20], TRANSPARENT, LINEAR][i % 4])
}

fn responses(i: usize) -> Vec<u8> {
    match i % 4 {
        0 => select([0x7F, 0x20]),
        1 => plain(0xC0, 0, 0, 22),
        2 => select(TRANSPARENT),
        _ => plain(0xC0, 0, 0, 15),
    }
}

fn reads(i: usize) -> Vec<u8> {
    match i % 4 {
        0 => plain(0xB2, 0, 2, RECORD as u8),
        3 => plain(0xB2, 0, 3, RECORD as u8),
        _ => plain(0xB2, nth(i), 4, RECORD as u8),
    }
}

/// The commands of one lap.
pub fn commands(family: &Family) -> Vec<Vec<u8>> {
    let mut list = vec![select([0x3F, 0x00]), select([0x7F, 0x20]), sent(0x20, 0, 1, &CHV1), select(family.file)];
    list.extend((0..BODY).map(family.command));
    list
}

/// The playing program's input.
pub fn playing(image: &[u8], commands: &[Vec<u8>]) -> Vec<u8> {
    let mut input = (image.len() as u16).to_be_bytes().to_vec();
    input.extend(image);
    input.extend((commands.len() as u16).to_be_bytes());
    for command in commands {
        input.extend((command.len() as u16).to_be_bytes());
        input.extend(command);
    }
    input
}

/// The input of laps.
pub fn laps(mode: u8, laps: u16, playing: &[u8]) -> Vec<u8> {
    let mut input = vec![mode];
    input.extend(laps.to_be_bytes());
    input.extend(playing);
    input
}
