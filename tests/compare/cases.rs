//! Stored runs in text form; see tests/README.md for the form.

use crate::coder_cases;
use crate::input::{frame, of_run};
use crate::judge::{lines, usable};
use crate::options::Options;
use crate::tally::{for_all, Tally};
use std::path::{Path, PathBuf};

pub struct Step {
    pub line: usize,
    pub command: Vec<u8>,
    /// Host answer and response as the program prints them.
    pub expected: String,
}

pub struct Case {
    pub image: Vec<u8>,
    pub steps: Vec<Step>,
}

pub fn run(options: &Options, tally: &mut Tally) {
    let mut files = Vec::new();
    for folder in &options.paths {
        find(Path::new(folder), &mut files);
    }
    files.sort();
    let programs = [("player", &options.player), ("teller", &options.teller)];
    for (who, command) in programs {
        let Some(command) = command else { continue };
        if let Err(what) = usable(command, options.limit) {
            tally.fail(&what);
            continue;
        }
        let list = with_ending(&files, "case");
        tally.add(for_all(options.jobs, list.len(), |place| {
            play(options, who, command, &list[place])
        }));
    }
    if let Some(command) = &options.coder {
        if let Err(what) = usable(command, options.limit) {
            return tally.fail(&what);
        }
        for file in with_ending(&files, "coder") {
            tally.add(coder_cases::play(options, command, &file));
        }
    }
    if files.is_empty() {
        tally.fail("no case is found");
    }
}

fn find(folder: &Path, files: &mut Vec<PathBuf>) {
    let Ok(entries) = std::fs::read_dir(folder) else {
        return;
    };
    for entry in entries.flatten() {
        let path = entry.path();
        if path.is_dir() {
            find(&path, files);
        } else {
            files.push(path);
        }
    }
}

fn with_ending(files: &[PathBuf], ending: &str) -> Vec<PathBuf> {
    let ends = |path: &&PathBuf| path.extension().is_some_and(|own| own == ending);
    files.iter().filter(ends).cloned().collect()
}

fn play(options: &Options, who: &str, command: &str, path: &Path) -> Result<(), String> {
    let case = read(path)?;
    let name = path.display();
    let mut told = lines(command, &[], &input(&case), options.limit)
        .map_err(|error| format!("{name}: {who} {error}"))?;
    if who == "teller" && told.pop().is_none_or(|line| !line.starts_with("image ")) {
        return Err(format!("{name}: teller printed no image"));
    }
    for (place, step) in case.steps.iter().enumerate() {
        let right = format!("{} {}", place + 1, step.expected);
        let line = told.get(place).map_or("(no line)", String::as_str);
        if line != right {
            let at = step.line;
            return Err(format!("{name}:{at}: {who} printed\n  {line}\nwhere right is\n  {right}"));
        }
    }
    if told.len() > case.steps.len() {
        return Err(format!("{name}: {who} printed more lines than commands"));
    }
    Ok(())
}

fn input(case: &Case) -> Vec<u8> {
    let commands: Vec<Vec<u8>> = case.steps.iter().map(|step| step.command.clone()).collect();
    of_run(&case.image, &commands)
}

/// The playing program's input from a case, or from a file that holds it.
pub fn input_of(path: &str) -> Result<Vec<u8>, String> {
    if path.ends_with(".case") {
        return Ok(input(&read(Path::new(path))?));
    }
    std::fs::read(path).map_err(|error| format!("{path}: {error}"))
}

/// An input in the text form, its expectations still to be written.
pub fn show(path: &str) -> Result<(), String> {
    let input = input_of(path)?;
    let count = input.get(..2).ok_or(format!("{path}: too short"))?;
    let end = 2 + usize::from(u16::from_be_bytes([count[0], count[1]]));
    let hexadecimal = |bytes: &[u8]| -> String {
        bytes.iter().map(|byte| format!("{byte:02X}")).collect()
    };
    println!("image");
    for line in input.get(2..end).unwrap_or_default().chunks(32) {
        println!("{}", hexadecimal(line));
    }
    println!("commands");
    for command in frame(&input).commands {
        let text = if command.is_empty() { "-".to_string() } else { hexadecimal(&command) };
        println!("{text} =>");
    }
    Ok(())
}

pub fn read(path: &Path) -> Result<Case, String> {
    let text = text_of(path)?;
    let mut case = Case { image: Vec::new(), steps: Vec::new() };
    let mut part = "";
    for (place, line) in text.lines().enumerate() {
        let at = |what: String| format!("{}:{}: {what}", path.display(), place + 1);
        let line = without_comment(line);
        match line.split_once(' ').map_or((line, ""), |(word, rest)| (word, rest.trim())) {
            ("", _) => {}
            ("image", "") => part = "image",
            ("image", file) => case.image = image_of(path, file)?,
            ("commands", "") => part = "commands",
            ("end", "") => part = "end",
            _ if part == "image" => case.image.extend(bytes(line).map_err(at)?),
            _ if part == "commands" => case.steps.push(step(line, place + 1).map_err(at)?),
            _ => return Err(at(format!("`{line}` stands in no part"))),
        }
    }
    Ok(case)
}

fn image_of(case: &Path, file: &str) -> Result<Vec<u8>, String> {
    let path = case.with_file_name(file);
    let mut image = Vec::new();
    for line in text_of(&path)?.lines() {
        let part = bytes(without_comment(line));
        image.extend(part.map_err(|what| format!("{}: {what}", path.display()))?);
    }
    Ok(image)
}

fn step(line: &str, number: usize) -> Result<Step, String> {
    let (command, expected) = line.split_once("=>").ok_or("no expectation")?;
    let mut words = expected.split_whitespace();
    let host = words.next().ok_or("no host answer")?;
    let response: String = words.collect();
    let expected = format!("{host} {response}");
    Ok(Step { line: number, command: bytes(command)?, expected })
}

pub fn text_of(path: &Path) -> Result<String, String> {
    std::fs::read_to_string(path).map_err(|error| format!("{}: {error}", path.display()))
}

pub fn without_comment(line: &str) -> &str {
    line.split('#').next().unwrap_or("").trim()
}

/// Bytes in hexadecimal, spaces allowed; `-` for none.
pub fn bytes(text: &str) -> Result<Vec<u8>, String> {
    let digits: String = text.split_whitespace().collect();
    if digits == "-" {
        return Ok(Vec::new());
    }
    if digits.len() % 2 != 0 || !digits.bytes().all(|byte| byte.is_ascii_hexdigit()) {
        return Err(format!("`{text}` is not hexadecimal"));
    }
    let pair = |place: usize| u8::from_str_radix(&digits[place..place + 2], 16).unwrap_or(0);
    Ok((0..digits.len()).step_by(2).map(pair).collect())
}
