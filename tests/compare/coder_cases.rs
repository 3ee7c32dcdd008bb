//! Stored coder cases, one a line: kind, operation, file and value, then
//! `=>` and the answer, the file afterwards and the value.

use crate::cases::{bytes, text_of, without_comment};
use crate::coder::{input, Entry};
use crate::judge::lines;
use crate::options::Options;
use std::path::Path;

const KINDS: [&str; 6] = ["iccid", "imsi", "plmn", "services", "spn", "administrative"];
const OPERATIONS: [&str; 2] = ["decode", "encode"];

struct Row {
    line: usize,
    entry: Entry,
    expected: String,
}

pub fn play(options: &Options, command: &str, path: &Path) -> Vec<Result<(), String>> {
    let name = path.display();
    let rows = match read(path) {
        Ok(rows) => rows,
        Err(what) => return vec![Err(what)],
    };
    let entries: Vec<Entry> = rows.iter().map(|row| row.entry.clone()).collect();
    let told = match lines(command, &[], &input(&entries), options.limit) {
        Ok(told) => told,
        Err(error) => return vec![Err(format!("{name}: coder {error}"))],
    };
    let judge = |(place, row): (usize, &Row)| {
        let right = format!("{} {}", place + 1, row.expected);
        let line = told.get(place).map_or("(no line)", String::as_str);
        let at = row.line;
        let what = || format!("{name}:{at}: coder printed\n  {line}\nwhere right is\n  {right}");
        if line == right { Ok(()) } else { Err(what()) }
    };
    rows.iter().enumerate().map(judge).collect()
}

fn read(path: &Path) -> Result<Vec<Row>, String> {
    let mut rows = Vec::new();
    for (place, line) in text_of(path)?.lines().enumerate() {
        let line = without_comment(line);
        if !line.is_empty() {
            let row = row(line, place + 1);
            rows.push(row.map_err(|what| format!("{}:{}: {what}", path.display(), place + 1))?);
        }
    }
    Ok(rows)
}

fn row(line: &str, number: usize) -> Result<Row, String> {
    let words: Vec<&str> = line.split_whitespace().collect();
    let [kind, operation, file, value, "=>", answer, after, given] = words[..] else {
        return Err(format!("`{line}` is no coder case"));
    };
    let entry = Entry {
        kind: code(&KINDS, 1, kind)?,
        operation: code(&OPERATIONS, 0, operation)?,
        file: bytes(file)?,
        value: bytes(value)?,
    };
    Ok(Row { line: number, entry, expected: format!("{answer} {after} {given}") })
}

/// The number of a name, or a number as it stands.
fn code(names: &[&str], first: u8, word: &str) -> Result<u8, String> {
    match names.iter().position(|name| *name == word) {
        Some(place) => Ok(first + place as u8),
        None => word.parse().map_err(|_| format!("`{word}` is unknown")),
    }
}
