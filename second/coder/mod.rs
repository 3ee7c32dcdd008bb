//! The coder. Standard input: a two-byte number of cases; each case is
//!
//! - a kind: 1 ICCID, 2 IMSI, 3 PLMN entry, 4 service table, 5 SPN,
//!   6 administrative data;
//! - an operation: 0 decode, 1 encode;
//! - a two-byte count and the file's bytes (for an encode as they stood before);
//! - a two-byte count and the value's bytes.
//!
//! Standard output: one line a case, `number answer file value`: the number
//! from 1, the answer 0, 5 or 6, the file's bytes afterwards, and the value
//! (of a decode: what was decoded, empty on a refusal; of an encode: as given;
//! of an unknown operation: empty). Bytes are in upper-case hexadecimal, `-`
//! for none. Input that ends early prints `short input` and stops.
//!
//! Values: ICCID and IMSI one digit a byte; PLMN the three MCC digits and the
//! MNC digits, empty for an unused entry; service table the service's number
//! in 4 bytes and the state in 1 (0 not allocated, 1 allocated, 2 activated),
//! where a decode takes the number and gives the state; SPN the byte of b1 and
//! b2 and then the name; administrative data the mode and the MNC length (0 if
//! absent). Other decodes take no value.
//!
//! The order: unknown kind 6; wrong file length 5; everything else 6.

mod administrative;
mod digits;
mod provider;
mod services;

use crate::hexadecimal::text;
use crate::input::{Input, Short};
use std::io::{BufWriter, Write};

const WRONG_LENGTH: u8 = 5;
const OUTSIDE: u8 = 6;

const DECODE: u8 = 0;
const ENCODE: u8 = 1;

pub fn run() {
    let mut input = Input::ahead();
    let mut output = BufWriter::new(std::io::stdout().lock());
    if cases(&mut input, &mut output).is_err() {
        let _ = writeln!(output, "short input");
    }
    let _ = output.flush();
}

fn cases(input: &mut Input, output: &mut impl Write) -> Result<(), Short> {
    let count = input.number()?;
    for number in 1..=count {
        let header = input.bytes(2)?;
        let file = input.counted()?;
        let value = input.counted()?;
        let _ = writeln!(output, "{number} {}", told(header[0], header[1], file, value));
    }
    Ok(())
}

fn told(kind: u8, operation: u8, file: Vec<u8>, value: Vec<u8>) -> String {
    let result = answer(kind, operation, &file, &value);
    let number = result.as_ref().err().copied().unwrap_or(0);
    let made = result.unwrap_or_default();
    let (file, value) = match operation {
        DECODE => (file, made),
        ENCODE if number == 0 => (made, value),
        ENCODE => (file, value),
        _ => (file, Vec::new()),
    };
    format!("{number} {} {}", text(&file), text(&value))
}

/// What the operation makes: a value or a file.
fn answer(kind: u8, operation: u8, file: &[u8], value: &[u8]) -> Result<Vec<u8>, u8> {
    if !length_fits(kind, file.len()).ok_or(OUTSIDE)? {
        return Err(WRONG_LENGTH);
    }
    let made = match operation {
        DECODE => decode(kind, file, value),
        ENCODE => encode(kind, file, value),
        _ => None,
    };
    made.ok_or(OUTSIDE)
}

fn length_fits(kind: u8, length: usize) -> Option<bool> {
    match kind {
        1 => Some(length == 10),
        2 => Some(length == 9),
        3 => Some(length == 3),
        4 => Some(length >= 2),
        5 => Some(length == 17),
        6 => Some(length >= 3),
        _ => None,
    }
}

fn decode(kind: u8, file: &[u8], value: &[u8]) -> Option<Vec<u8>> {
    if kind == 4 {
        return services::decode(file, value);
    }
    if !value.is_empty() {
        return None;
    }
    match kind {
        1 => digits::decode_iccid(file),
        2 => digits::decode_imsi(file),
        3 => digits::decode_plmn(file),
        5 => provider::decode(file),
        _ => administrative::decode(file),
    }
}

fn encode(kind: u8, file: &[u8], value: &[u8]) -> Option<Vec<u8>> {
    match kind {
        1 => digits::encode_iccid(value),
        2 => digits::encode_imsi(value),
        3 => digits::encode_plmn(value),
        4 => services::encode(file, value),
        5 => provider::encode(value),
        _ => administrative::encode(file, value),
    }
}
