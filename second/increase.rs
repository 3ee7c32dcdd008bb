use crate::play::{access, current, valid, Command, Outcome};
use crate::records::overwrite_oldest;
use crate::session::Session;
use crate::shelf::Image;

pub fn increase(card: &mut Image, session: &mut Session, command: &Command) -> Outcome {
    let number = current(session)?;
    let file = &card.files[number];
    if file.increase != 0x40 {
        return Err(0x9408);
    }
    valid(file)?;
    access(card, session, file.access[1] >> 4)?;
    let newest = &file.body.records().ok_or(0x9408_u16)?[0];
    let sum = three_bytes(newest) + three_bytes(command.data);
    if sum > 0xFF_FFFF {
        return Err(0x9850);
    }
    let value = &sum.to_be_bytes()[1..];
    overwrite_oldest(&mut card.files[number].body, value);
    session.pointer = Some(1);
    session.waiting = [value, command.data].concat();
    Ok((Vec::new(), 0x9F06))
}

fn three_bytes(bytes: &[u8]) -> u32 {
    bytes.iter().fold(0, |value, byte| value * 256 + u32::from(*byte))
}
