//! READ RECORD, UPDATE RECORD and SEEK.

use crate::play::{access, current, done, readable, valid, Command, Outcome, DONE};
use crate::session::Session;
use crate::shelf::{Body, Image};

pub const PREVIOUS: u8 = 3;

pub fn read(card: &Image, session: &mut Session, command: &Command) -> Outcome {
    let file = &card.files[current(session)?];
    let records = file.body.records().ok_or(0x9408_u16)?;
    readable(file)?;
    access(card, session, file.access[0] >> 4)?;
    whole_record(command, &file.body)?;
    let number = target(session.pointer, command, &file.body).ok_or(0x9402_u16)?;
    let record = records[number - 1].clone();
    move_pointer(session, command.p2, number);
    Ok((record, DONE))
}

pub fn update(card: &mut Image, session: &mut Session, command: &Command) -> Outcome {
    let number = current(session)?;
    let file = &card.files[number];
    match file.body {
        Body::Transparent(_) => return Err(0x9408),
        Body::Cyclic { .. } if command.p2 != PREVIOUS => return Err(0x9408),
        _ => {}
    }
    readable(file)?;
    access(card, session, file.access[0] & 0x0F)?;
    whole_record(command, &file.body)?;
    if let Body::Cyclic { .. } = file.body {
        overwrite_oldest(&mut card.files[number].body, command.data);
        session.pointer = Some(1);
        return done();
    }
    let reached = target(session.pointer, command, &file.body).ok_or(0x9402_u16)?;
    if let Body::Linear(records) = &mut card.files[number].body {
        records[reached - 1] = command.data.to_vec();
    }
    move_pointer(session, command.p2, reached);
    done()
}

/// The oldest record of a cyclic file gives way to a new record 1.
pub fn overwrite_oldest(body: &mut Body, data: &[u8]) {
    if let Body::Cyclic { records, top } = body {
        records.pop_back();
        records.push_front(data.to_vec());
        *top = (*top + records.len() - 1) % records.len();
    }
}

fn whole_record(command: &Command, body: &Body) -> Result<(), u16> {
    let length = body.record_length();
    if command.p3 == length { Ok(()) } else { Err(0x6700 + length as u16) }
}

fn target(pointer: Option<usize>, command: &Command, body: &Body) -> Option<usize> {
    let last = body.records()?.len();
    let cyclic = matches!(body, Body::Cyclic { .. });
    match (command.p2, pointer) {
        (2, None) => Some(1),
        (2, Some(number)) if number < last => Some(number + 1),
        (2, Some(_)) => cyclic.then_some(1),
        (3, None) => Some(last),
        (3, Some(number)) if number > 1 => Some(number - 1),
        (3, Some(_)) => cyclic.then_some(last),
        (_, pointer) if command.p1 == 0 => pointer,
        _ => Some(usize::from(command.p1)).filter(|number| *number <= last),
    }
}

fn move_pointer(session: &mut Session, mode: u8, number: usize) {
    if mode == 2 || mode == PREVIOUS {
        session.pointer = Some(number);
    }
}

pub fn seek(card: &Image, session: &mut Session, command: &Command) -> Outcome {
    let file = &card.files[current(session)?];
    let Body::Linear(records) = &file.body else {
        return Err(0x9408);
    };
    valid(file)?;
    access(card, session, file.access[0] >> 4)?;
    let length = file.body.record_length();
    if command.p3 > length {
        return Err(0x6700 + length as u16);
    }
    let found = order(command.p2 & 0x0F, session.pointer, records.len())
        .into_iter()
        .find(|number| records[number - 1].starts_with(command.data))
        .ok_or(0x9404_u16)?;
    session.pointer = Some(found);
    if command.p2 >> 4 == 0 {
        return done();
    }
    session.waiting = vec![found as u8];
    Ok((Vec::new(), 0x9F01))
}

/// The record numbers in the order in which SEEK looks at them.
fn order(mode: u8, pointer: Option<usize>, last: usize) -> Vec<usize> {
    match (mode, pointer) {
        (2, Some(number)) => (number + 1..=last).collect(),
        (3, Some(number)) => (1..number).rev().collect(),
        (0 | 2, _) => (1..=last).collect(),
        _ => (1..=last).rev().collect(),
    }
}
