//! The benchmark: plays lists of commands in laps on images of several sizes, with the Rattle program and the C player, and writes
//! how their times compare. `bench/run` and `bench/test` start it.

mod cards;
mod check;
mod lists;
mod measure;
mod process;
mod report;

use std::io::Write;

const USAGE: &str = "usage: bench check --second CMD --laps CMD...
       bench input --files N --family N --mode N --laps N
       bench measure --rattle CMD --c CMD --kept CMD --out FILE --date DATE --machine TEXT [--rounds N] [--seconds N]";

/// The words after `--name`, in their order.
fn values(words: &[String], name: &str) -> Vec<String> {
    words.windows(2).filter(|pair| pair[0] == name).map(|pair| pair[1].clone()).collect()
}

fn value(words: &[String], name: &str) -> Result<String, String> {
    values(words, name).pop().ok_or(format!("{name} is missing\n{USAGE}"))
}

fn count(words: &[String], name: &str, otherwise: u64) -> Result<u64, String> {
    match values(words, name).pop() {
        None => Ok(otherwise),
        Some(text) => text.parse().map_err(|_| format!("{name} {text}: not a number")),
    }
}

fn measure(words: &[String]) -> Result<(), String> {
    let programs = [value(words, "--c")?, value(words, "--rattle")?, value(words, "--kept")?];
    let rounds = count(words, "--rounds", 3)? as usize;
    let seconds = count(words, "--seconds", 600)?;
    let out = value(words, "--out")?;
    let head = report::Head { date: value(words, "--date")?, machine: value(words, "--machine")? };
    let results = measure::all(&programs, rounds, seconds)?;
    let text = report::text(&head, &results);
    std::fs::write(&out, text).map_err(|error| format!("{out}: {error}"))
}

/// The input of one case goes to standard output, to look closer at it by hand.
fn input(words: &[String]) -> Result<(), String> {
    let files = count(words, "--files", 60)?.clamp(5, 200) as usize;
    let family = lists::FAMILIES.get(count(words, "--family", 0)? as usize).ok_or("no such family")?;
    let playing = lists::playing(&cards::image(files), &lists::commands(family));
    let input = lists::laps(count(words, "--mode", 0)? as u8, count(words, "--laps", 100)? as u16, &playing);
    std::io::stdout().write_all(&input).map_err(|error| error.to_string())
}

fn main() {
    let words: Vec<String> = std::env::args().skip(1).collect();
    let ended = match words.first().map(String::as_str) {
        Some("check") => check::run(&words),
        Some("input") => input(&words),
        Some("measure") => measure(&words),
        _ => Err(USAGE.to_string()),
    };
    if let Err(what) = ended {
        eprintln!("{what}");
        std::process::exit(1);
    }
}
