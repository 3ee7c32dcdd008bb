//! READ BINARY, UPDATE BINARY, INVALIDATE and REHABILITATE.

use crate::play::{access, current, done, readable, Command, Outcome, DONE};
use crate::session::Session;
use crate::shelf::{Body, Image};

pub fn read(card: &Image, session: &Session, command: &Command) -> Outcome {
    let file = &card.files[current(session)?];
    let Body::Transparent(bytes) = &file.body else {
        return Err(0x9408);
    };
    readable(file)?;
    access(card, session, file.access[0] >> 4)?;
    let count = if command.p3 == 0 { 256 } else { command.p3 };
    let start = offset(command);
    let part = bytes.get(start..start + count).ok_or(0x9402_u16)?;
    Ok((part.to_vec(), DONE))
}

pub fn update(card: &mut Image, session: &Session, command: &Command) -> Outcome {
    let number = current(session)?;
    let file = &card.files[number];
    if file.body.records().is_some() {
        return Err(0x9408);
    }
    readable(file)?;
    access(card, session, file.access[0] & 0x0F)?;
    let start = offset(command);
    if let Body::Transparent(bytes) = &mut card.files[number].body {
        let part = bytes.get_mut(start..start + command.p3).ok_or(0x9402_u16)?;
        part.copy_from_slice(command.data);
    }
    done()
}

fn offset(command: &Command) -> usize {
    usize::from(command.p1) * 256 + usize::from(command.p2)
}

pub fn invalidate(card: &mut Image, session: &Session) -> Outcome {
    let number = current(session)?;
    if !card.files[number].valid {
        return Err(0x9810);
    }
    access(card, session, card.files[number].access[2] & 0x0F)?;
    card.files[number].valid = false;
    done()
}

pub fn rehabilitate(card: &mut Image, session: &Session) -> Outcome {
    let number = current(session)?;
    if card.files[number].valid {
        return Err(0x9810);
    }
    access(card, session, card.files[number].access[2] >> 4)?;
    card.files[number].valid = true;
    done()
}
