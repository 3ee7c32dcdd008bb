//! VERIFY, CHANGE, DISABLE, ENABLE and UNBLOCK.

use crate::play::{done, Command, Outcome};
use crate::session::Session;
use crate::shelf::{Code, Image};

const CHANGE: u8 = 0x24;
const DISABLE: u8 = 0x26;
const ENABLE: u8 = 0x28;
const UNBLOCK: u8 = 0x2C;

pub fn play(card: &mut Image, session: &mut Session, command: &Command) -> Outcome {
    let number = if command.p2 == 2 { 1 } else { 0 };
    let code = &mut card.codes[number];
    acceptable(code, command.instruction)?;
    compare(code, command)?;
    code.attempts = 3;
    session.presented[number] = true;
    match command.instruction {
        CHANGE => code.chv.copy_from_slice(&command.data[8..]),
        DISABLE => code.disabled = true,
        ENABLE => code.disabled = false,
        UNBLOCK => {
            code.chv.copy_from_slice(&command.data[8..]);
            code.unblock_attempts = 10;
            code.disabled = false;
        }
        _ => {}
    }
    done()
}

fn acceptable(code: &Code, instruction: u8) -> Result<(), u16> {
    let unblock = instruction == UNBLOCK;
    if !code.initialised || (unblock && !code.unblock_initialised) {
        return Err(0x9802);
    }
    let left = if unblock { code.unblock_attempts } else { code.attempts };
    if left == 0 {
        return Err(0x9840);
    }
    if !unblock && code.disabled != (instruction == ENABLE) {
        return Err(0x9808);
    }
    Ok(())
}

/// A wrong value lowers its counter.
fn compare(code: &mut Code, command: &Command) -> Result<(), u16> {
    let (value, left) = if command.instruction == UNBLOCK {
        (&code.unblock, &mut code.unblock_attempts)
    } else {
        (&code.chv, &mut code.attempts)
    };
    if command.data[..8] == value[..] {
        return Ok(());
    }
    *left -= 1;
    Err(if *left == 0 { 0x9840 } else { 0x9804 })
}
