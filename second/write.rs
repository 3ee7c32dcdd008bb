//! From the owned structures back to the shelf form.

use crate::shelf::{Body, Code, Directory, ElementaryFile, Image};

pub fn image(image: &Image) -> Vec<u8> {
    let mut shelf = Vec::new();
    number(&mut shelf, image.codes.len());
    for entry in &image.codes {
        code(&mut shelf, entry);
    }
    number(&mut shelf, image.directories.len());
    for entry in &image.directories {
        directory(&mut shelf, entry);
    }
    number(&mut shelf, image.files.len());
    for entry in &image.files {
        file(&mut shelf, entry);
    }
    number(&mut shelf, image.files.iter().map(|file| file.body.size()).sum());
    for entry in &image.files {
        shelf.extend(stored_bytes(&entry.body));
    }
    shelf
}

fn number(shelf: &mut Vec<u8>, value: usize) {
    shelf.extend([(value / 256) as u8, (value % 256) as u8]);
}

fn code(shelf: &mut Vec<u8>, code: &Code) {
    let flags = 0x80 * u8::from(code.initialised)
        + 0x40 * u8::from(code.unblock_initialised)
        + u8::from(code.disabled);
    shelf.extend([flags, code.attempts, code.unblock_attempts, 0]);
    shelf.extend(code.chv);
    shelf.extend(code.unblock);
}

fn directory(shelf: &mut Vec<u8>, directory: &Directory) {
    number(shelf, usize::from(directory.identifier));
    shelf.extend([directory.parent as u8, directory.characteristics]);
    number(shelf, usize::from(directory.free_memory));
    shelf.extend([directory.number_of_codes, 0]);
}

fn file(shelf: &mut Vec<u8>, file: &ElementaryFile) {
    number(shelf, usize::from(file.identifier));
    let length = file.body.record_length() as u8;
    shelf.extend([file.directory as u8, file.body.structure(), length, file.increase]);
    shelf.extend(file.access);
    shelf.push(file.status());
    number(shelf, file.body.size());
    let top = match file.body {
        Body::Cyclic { top, .. } => top,
        _ => 0,
    };
    shelf.extend([top as u8, 0]);
}

fn stored_bytes(body: &Body) -> Vec<u8> {
    match body {
        Body::Transparent(bytes) => bytes.clone(),
        Body::Linear(records) => records.iter().flatten().copied().collect(),
        Body::Cyclic { records, top } => {
            let mut places = records.clone();
            places.rotate_right(*top);
            places.into_iter().flatten().collect()
        }
    }
}
