//! Runs the programs under test beside the second program and compares.

mod broken;
mod cases;
mod coder;
mod coder_cases;
mod coder_values;
mod edges;
mod images;
mod input;
mod judge;
mod options;
mod pairs;
mod prng;
mod process;
mod random;
mod runs;
mod shelf;
mod sound;
mod spoil;
mod steps;
mod sweep;
mod tally;

use options::Options;
use tally::Tally;

fn main() {
    let arguments: Vec<String> = std::env::args().skip(1).collect();
    let options = options::read(&arguments).unwrap_or_else(|error| {
        eprintln!("{error}\n{}", options::USAGE);
        std::process::exit(2);
    });
    if options.mode == "show" {
        for path in &options.paths {
            cases::show(path).unwrap_or_else(|error| eprintln!("{error}"));
        }
        return;
    }
    let mut tally = Tally::default();
    if ready(&options, &mut tally) {
        match options.mode.as_str() {
            "random" => random::run(&options, &mut tally),
            "prefixes" => random::prefixes(&options, &mut tally),
            "steps" => random::steps(&options, &mut tally),
            "coder" => coder::run(&options, &mut tally),
            "cases" => cases::run(&options, &mut tally),
            _ => images::run(&options, &mut tally),
        }
    }
    tally.end();
}

/// Whether the programs that the mode needs are named and can be used.
fn ready(options: &Options, tally: &mut Tally) -> bool {
    if options.mode == "cases" {
        return true;
    }
    let mut needed: Vec<&String> = match options.mode.as_str() {
        "coder" => options.coder.iter().collect(),
        _ => options.player.iter().chain(&options.teller).collect(),
    };
    let Some(second) = options.second.as_ref().filter(|_| !needed.is_empty()) else {
        tally.fail("the second program or a program under test is not named");
        return false;
    };
    needed.push(second);
    let mut all = true;
    for command in needed {
        if let Err(what) = judge::usable(command, options.limit) {
            tally.fail(&what);
            all = false;
        }
    }
    all
}
