use crate::play::{Command, Outcome, DONE};
use crate::session::Session;
use crate::shelf::{Body, ElementaryFile, Image};

pub fn select(card: &Image, session: &mut Session, command: &Command) -> Outcome {
    let identifier = u16::from_be_bytes([command.data[0], command.data[1]]);
    if let Some(number) = reached_directory(card, session.directory, identifier) {
        session.directory = number;
        session.file = None;
        session.pointer = None;
        session.waiting = directory_response(card, number);
        return Ok((Vec::new(), 0x9F16));
    }
    let file = card.files.iter().position(|file| {
        file.directory == session.directory && file.identifier == identifier
    });
    let number = file.ok_or(0x9404_u16)?;
    let file = &card.files[number];
    session.file = Some(number);
    session.pointer = matches!(file.body, Body::Cyclic { .. }).then_some(1);
    session.waiting = file_response(file);
    Ok((Vec::new(), 0x9F0F))
}

fn reached_directory(card: &Image, from: usize, identifier: u16) -> Option<usize> {
    let above = card.directories[from].parent;
    let reached = |number: usize| {
        let parent = card.directories[number].parent;
        let below = number != 0 && (parent == from || parent == above);
        number == 0 || number == from || number == above || below
    };
    (0..card.directories.len())
        .find(|&number| reached(number) && card.directories[number].identifier == identifier)
}

pub fn status(card: &Image, session: &Session, command: &Command) -> Outcome {
    let mut bytes = directory_response(card, session.directory);
    bytes.truncate(command.p3);
    Ok((bytes, DONE))
}

fn directory_response(card: &Image, number: usize) -> Vec<u8> {
    let directory = &card.directories[number];
    let directories = card.directories.iter().skip(1).filter(|other| other.parent == number);
    let files = card.files.iter().filter(|file| file.directory == number);
    let mut bytes = vec![0, 0];
    bytes.extend(directory.free_memory.to_be_bytes());
    bytes.extend(directory.identifier.to_be_bytes());
    bytes.push(if number == 0 { 1 } else { 2 });
    bytes.extend([0; 5]);
    bytes.push(9);
    bytes.push(directory.characteristics | marked(card.codes[0].disabled));
    bytes.extend([directories.count() as u8, files.count() as u8]);
    bytes.extend([directory.number_of_codes, 0]);
    for code in &card.codes {
        bytes.push(marked(code.initialised) | code.attempts);
        bytes.push(marked(code.unblock_initialised) | code.unblock_attempts);
    }
    bytes
}

fn marked(bit8: bool) -> u8 {
    if bit8 { 0x80 } else { 0 }
}

fn file_response(file: &ElementaryFile) -> Vec<u8> {
    let mut bytes = vec![0, 0];
    bytes.extend((file.body.size() as u16).to_be_bytes());
    bytes.extend(file.identifier.to_be_bytes());
    bytes.extend([4, file.increase]);
    bytes.extend(file.access);
    bytes.extend([file.status(), 2, file.body.structure()]);
    bytes.push(file.body.record_length() as u8);
    bytes
}
