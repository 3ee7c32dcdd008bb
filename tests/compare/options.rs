//! The command line.

use std::time::Duration;

#[derive(Default)]
pub struct Options {
    pub mode: String,
    pub player: Option<String>,
    pub teller: Option<String>,
    pub coder: Option<String>,
    pub second: Option<String>,
    pub seed: u64,
    pub first: usize,
    pub count: usize,
    pub commands: usize,
    pub jobs: usize,
    pub limit: Duration,
    pub table: bool,
    pub all_plmn: bool,
    pub all_changes: bool,
    pub paths: Vec<String>,
}

pub const USAGE: &str = "usage: compare [MODE] [OPTION...] [PATH...]
modes:   images (by itself where none is named), random, prefixes, steps, coder, cases,
         show (an input file in the form of a case)
options: --player CMD --teller CMD --coder CMD --second CMD
         --seed N --first N --count N --commands N --jobs N --limit SECONDS
         --table (print what each instruction gave) --all-plmn (all 2^24 entries)
         --all-changes (every change of two bytes of a file of each kind)
paths:   prefixes, steps, show: input files or cases; cases: folders";

const MODES: [&str; 7] = ["images", "random", "prefixes", "steps", "coder", "cases", "show"];

pub fn read(arguments: &[String]) -> Result<Options, String> {
    let mut options = Options {
        mode: "images".to_string(),
        seed: 1,
        count: 100,
        commands: 60,
        jobs: 2,
        limit: Duration::from_secs(20),
        ..Options::default()
    };
    let mut rest = arguments.iter().peekable();
    if let Some(mode) = rest.next_if(|word| MODES.contains(&word.as_str())) {
        options.mode = mode.clone();
    }
    while let Some(word) = rest.next() {
        match word.as_str() {
            "--table" => options.table = true,
            "--all-plmn" => options.all_plmn = true,
            "--all-changes" => options.all_changes = true,
            name if name.starts_with("--") => {
                let value = rest.next().ok_or(format!("{name} needs a value"))?;
                set(&mut options, name, value)?;
            }
            path => options.paths.push(path.to_string()),
        }
    }
    Ok(options)
}

fn set(options: &mut Options, name: &str, value: &str) -> Result<(), String> {
    let number = || value.parse::<u64>().map_err(|_| format!("{name} {value}: not a number"));
    match name {
        "--player" => options.player = Some(value.to_string()),
        "--teller" => options.teller = Some(value.to_string()),
        "--coder" => options.coder = Some(value.to_string()),
        "--second" => options.second = Some(value.to_string()),
        "--seed" => options.seed = number()?,
        "--first" => options.first = number()? as usize,
        "--count" => options.count = number()? as usize,
        "--commands" => options.commands = number()? as usize,
        "--jobs" => options.jobs = number()?.max(1) as usize,
        "--limit" => options.limit = Duration::from_secs(number()?),
        _ => return Err(format!("{name}: no such option")),
    }
    Ok(())
}
