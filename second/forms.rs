//! What each instruction takes in P1, P2 and P3.

use std::ops::RangeInclusive;

pub struct Form {
    /// The command sends P3 data bytes; others send none.
    pub sends: bool,
    pub parameters: fn(u8, u8) -> bool,
    pub lengths: RangeInclusive<usize>,
    /// Second byte of the 67 for a P3 outside `lengths`.
    pub right_length: u16,
}

fn zeros(p1: u8, p2: u8) -> bool {
    p1 == 0 && p2 == 0
}

fn offset(_: u8, _: u8) -> bool {
    true
}

fn record(_: u8, mode: u8) -> bool {
    (2..=4).contains(&mode)
}

fn seek(p1: u8, type_and_mode: u8) -> bool {
    p1 == 0 && type_and_mode >> 4 <= 1 && type_and_mode & 0x0F <= 3
}

fn either_chv(p1: u8, p2: u8) -> bool {
    p1 == 0 && (p2 == 1 || p2 == 2)
}

fn chv1(p1: u8, p2: u8) -> bool {
    p1 == 0 && p2 == 1
}

fn unblock(p1: u8, p2: u8) -> bool {
    p1 == 0 && (p2 == 0 || p2 == 2)
}

pub fn of(instruction: u8) -> Option<Form> {
    let (sends, parameters, lengths, right_length): (_, fn(u8, u8) -> bool, _, _) =
        match instruction {
            0xA4 => (true, zeros, 2..=2, 0x02),
            0xF2 => (false, zeros, 1..=22, 0x16),
            0xB0 => (false, offset, 0..=255, 0),
            0xD6 => (true, offset, 1..=255, 0),
            0xB2 => (false, record, 0..=255, 0),
            0xDC => (true, record, 1..=255, 0),
            0xA2 => (true, seek, 1..=16, 0),
            0x32 => (true, zeros, 3..=3, 0x03),
            0x20 => (true, either_chv, 8..=8, 0x08),
            0x24 => (true, either_chv, 16..=16, 0x10),
            0x26 | 0x28 => (true, chv1, 8..=8, 0x08),
            0x2C => (true, unblock, 16..=16, 0x10),
            0x04 | 0x44 | 0xFA => (false, zeros, 0..=0, 0),
            0xC0 => (false, zeros, 0..=255, 0),
            _ => return None,
        };
    Some(Form { sends, parameters, lengths, right_length })
}
