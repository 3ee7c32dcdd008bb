//! One command on the card: the order of refusals up to the data bytes, then
//! the command itself.

use crate::session::Session;
use crate::shelf::{ElementaryFile, Image};
use crate::{binary, codes, forms, increase, records, select};

pub struct Command<'a> {
    pub class: u8,
    pub instruction: u8,
    pub p1: u8,
    pub p2: u8,
    pub p3: usize,
    pub data: &'a [u8],
}

/// Bytes before the status word, and the status word.
pub type Reply = (Vec<u8>, u16);

/// A refusal is its status word.
pub type Outcome = Result<Reply, u16>;

pub const DONE: u16 = 0x9000;

pub fn done() -> Outcome {
    Ok((Vec::new(), DONE))
}

/// The response, or none where the command is cut (host answer 4).
pub fn play(card: &mut Image, session: &mut Session, bytes: &[u8]) -> Option<Vec<u8>> {
    let [class, instruction, p1, p2, p3, data @ ..] = bytes else {
        return None;
    };
    let command = Command {
        class: *class,
        instruction: *instruction,
        p1: *p1,
        p2: *p2,
        p3: usize::from(*p3),
        data,
    };
    if command.class != 0xA0 {
        return Some(response(Err(0x6E00)));
    }
    match check(&command) {
        Err(word) => {
            session.waiting.clear();
            Some(response(Err(word)))
        }
        Ok(count) if count != data.len() => None,
        Ok(_) => Some(response(act(card, session, &command))),
    }
}

/// The number of data bytes the command must have.
fn check(command: &Command) -> Result<usize, u16> {
    let form = forms::of(command.instruction).ok_or(0x6D00_u16)?;
    if !(form.parameters)(command.p1, command.p2) {
        return Err(0x6B00);
    }
    if !form.lengths.contains(&command.p3) {
        return Err(0x6700 + form.right_length);
    }
    Ok(if form.sends { command.p3 } else { 0 })
}

fn act(card: &mut Image, session: &mut Session, command: &Command) -> Outcome {
    let waited = std::mem::take(&mut session.waiting);
    match command.instruction {
        0xA4 => select::select(card, session, command),
        0xF2 => select::status(card, session, command),
        0xC0 => get_response(session, waited, command.p3),
        0xB0 => binary::read(card, session, command),
        0xD6 => binary::update(card, session, command),
        0xB2 => records::read(card, session, command),
        0xDC => records::update(card, session, command),
        0xA2 => records::seek(card, session, command),
        0x32 => increase::increase(card, session, command),
        0x04 => binary::invalidate(card, session),
        0x44 => binary::rehabilitate(card, session),
        0xFA => done(),
        _ => codes::play(card, session, command),
    }
}

fn get_response(session: &mut Session, waited: Vec<u8>, wanted: usize) -> Outcome {
    if waited.is_empty() {
        return Err(0x6F00);
    }
    if wanted == 0 || wanted > waited.len() {
        let word = 0x6700 + waited.len() as u16;
        session.waiting = waited;
        return Err(word);
    }
    Ok((waited[..wanted].to_vec(), DONE))
}

fn response(outcome: Outcome) -> Vec<u8> {
    let (mut bytes, word) = outcome.unwrap_or_else(|word| (Vec::new(), word));
    bytes.extend(word.to_be_bytes());
    bytes
}

/// The current EF's number, or 94 00.
pub fn current(session: &Session) -> Result<usize, u16> {
    session.file.ok_or(0x9400)
}

/// READ and UPDATE on an invalidated file need status b3.
pub fn readable(file: &ElementaryFile) -> Result<(), u16> {
    if file.valid || file.readable_when_invalidated { Ok(()) } else { Err(0x9810) }
}

pub fn valid(file: &ElementaryFile) -> Result<(), u16> {
    if file.valid { Ok(()) } else { Err(0x9810) }
}

/// `level` is one half of an access byte.
pub fn access(card: &Image, session: &Session, level: u8) -> Result<(), u16> {
    let granted = match level {
        0 => true,
        1 => {
            let chv1 = &card.codes[0];
            chv1.attempts > 0 && (chv1.disabled || session.presented[0])
        }
        2 => card.codes[1].attempts > 0 && session.presented[1],
        _ => false,
    };
    if granted { Ok(()) } else { Err(0x9804) }
}
