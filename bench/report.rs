//! docs/BENCHMARKS.md.

use crate::cards::SIZES;
use crate::lists::{BODY, FAMILIES, SETTING_OUT};
use crate::measure::{Case, Results};
use std::fmt::Write;

pub struct Head {
    pub date: String,
    pub machine: String,
}

const C: usize = 0;
const RATTLE: usize = 1;
const KEPT: usize = 2;

fn median(values: &[f64]) -> f64 {
    let mut sorted = values.to_vec();
    sorted.sort_by(f64::total_cmp);
    let n = sorted.len();
    match n {
        0 => f64::NAN,
        _ => (sorted[(n - 1) / 2] + sorted[n / 2]) / 2.0,
    }
}

fn ends(values: &[f64]) -> (f64, f64) {
    values.iter().fold((f64::INFINITY, f64::NEG_INFINITY), |(low, high), value| (low.min(*value), high.max(*value)))
}

impl Results {
    fn case(&self, mode: u8, files: usize, family: &str) -> Option<&Case> {
        self.cases.iter().find(|case| case.mode == mode && case.files == files && case.family == family)
    }

    fn time(&self, mode: u8, files: usize, family: &str, program: usize) -> f64 {
        self.case(mode, files, family).map_or(f64::NAN, |case| median(&case.times[program]))
    }

    fn ratio(&self, mode: u8, files: usize, family: &str, to: usize) -> f64 {
        self.time(mode, files, family, RATTLE) / self.time(mode, files, family, to)
    }

    fn growth(&self, mode: u8, family: &str, program: usize) -> f64 {
        self.time(mode, 200, family, program) / self.time(mode, 20, family, program)
    }
}

fn table(text: &mut String, first: &str, columns: &[String], cell: impl Fn(&str, usize) -> String) {
    let _ = writeln!(text, "| {first} | {} |", columns.join(" | "));
    let _ = writeln!(text, "|---|{}", "---:|".repeat(columns.len()));
    for family in &FAMILIES {
        let cells: Vec<String> = (0..columns.len()).map(|column| cell(family.name, column)).collect();
        let _ = writeln!(text, "| {} | {} |", family.name, cells.join(" | "));
    }
    text.push('\n');
}

fn sizes() -> Vec<String> {
    SIZES.iter().map(|files| format!("{files} files")).collect()
}

/// The ratio of the medians, and the least and the greatest ratio of a round.
fn ratio_cell(results: &Results, mode: u8, to: usize, family: &str, column: usize) -> String {
    let Some(case) = results.case(mode, SIZES[column], family) else {
        return String::new();
    };
    let each: Vec<f64> = case.times[RATTLE].iter().zip(&case.times[to]).map(|(rattle, c)| rattle / c).collect();
    let (low, high) = ends(&each);
    format!("{:.2} ({low:.2}..{high:.2})", results.ratio(mode, SIZES[column], family, to))
}

/// Nanoseconds: the median, the least and the greatest.
fn time_cell(results: &Results, mode: u8, program: usize, family: &str, column: usize) -> String {
    let Some(case) = results.case(mode, SIZES[column], family) else {
        return String::new();
    };
    let (low, high) = ends(&case.times[program]);
    format!("{:.0} ({:.0}..{:.0})", median(&case.times[program]) * 1e9, low * 1e9, high * 1e9)
}

fn head(text: &mut String, head: &Head, results: &Results) {
    let commands = SETTING_OUT + BODY;
    let _ = writeln!(
        text,
        "# Benchmarks

Written by `bench/run` on {}. Machine: {}.

The Rattle program `laps` and a plain C player (`bench/player.c`, clang -O3) do the same work behind the same interface: everything is in the
arguments, the session goes in and comes back by value, and nothing is kept between commands. A second build of the C player goes beyond
that: it keeps an index between commands (where files start, what a directory holds, which entry an identifier names) in memory of its own.
All are compiled for x86-64 by the same compiler and started by the same loader, and one run of the benchmark times them in turn on the
same input. An image has 5, 20, 60 or 200
files in 3, 4, 6 or 10 directories, of all three structures; the files that the commands work on are the same in each. A lap is
{SETTING_OUT} commands that set out (two SELECTs of directories, VERIFY, SELECT of the file) and {BODY} of one family. The time of a command
is the processor time of a run of many laps, less that of a run of one lap, divided by the commands in between ({commands} a lap).
{} rounds; median, and in brackets the least and the greatest. All programs tell sums over all answers and over the image at the end,
and a difference between them ends the benchmark.
",
        head.date, head.machine, results.rounds
    );
}

fn worst(values: impl Iterator<Item = (f64, &'static str)>) -> String {
    let most = values.fold((f64::NEG_INFINITY, ""), |most, each| if each.0 > most.0 { each } else { most });
    format!("{:.2} ({})", most.0, most.1)
}

fn summary(text: &mut String, results: &Results) {
    let ratio = |mode, to| worst(FAMILIES.iter().map(move |family| (results.ratio(mode, 60, family.name, to), family.name)));
    let growth = |program| worst(FAMILIES.iter().map(move |family| (results.growth(0, family.name, program), family.name)));
    let _ = writeln!(
        text,
        "## In short

- Greatest ratio of Rattle to C at 60 files: {} with all tests at every command, {} in runs.
- To C with an index kept: {} with all tests, {} in runs.
- Greatest growth of a command with all tests from 20 to 200 files: Rattle {}, C {}.
",
        ratio(0, C),
        ratio(1, C),
        ratio(0, KEPT),
        ratio(1, KEPT),
        growth(RATTLE),
        growth(C)
    );
}

/// What is tested when, by mode.
const TESTED: [&str; 2] = [
    "The image and the session are tested at every command.",
    "The image and the session are tested at the start of each lap; its commands rely on that.",
];

pub fn text(top: &Head, results: &Results) -> String {
    let mut text = String::new();
    head(&mut text, top, results);
    summary(&mut text, results);
    for (to, name) in [(C, "C"), (KEPT, "C with an index kept")] {
        for (mode, what) in [(0, "one command with all tests"), (1, "runs")] {
            let _ = writeln!(text, "## Rattle to {name}: {what}\n\n{}\n", TESTED[usize::from(mode)]);
            table(&mut text, "Family", &sizes(), |family, column| ratio_cell(results, mode, to, family, column));
        }
    }
    text.push_str("## Growth from 20 to 200 files\n\n");
    let columns = ["Rattle, all tests", "C, all tests", "Rattle, runs", "C, runs"].map(String::from);
    let growth = |family: &str, column: usize| {
        format!("{:.2}", results.growth((column / 2) as u8, family, if column % 2 == 0 { RATTLE } else { C }))
    };
    table(&mut text, "Family", &columns, growth);
    for (mode, what) in [(0, "all tests"), (1, "runs")] {
        for (program, name) in [(RATTLE, "Rattle"), (C, "C"), (KEPT, "C with an index kept")] {
            let _ = writeln!(text, "## Nanoseconds a command: {name}, {what}\n");
            table(&mut text, "Family", &sizes(), |family, column| time_cell(results, mode, program, family, column));
        }
    }
    text.truncate(text.trim_end().len());
    text.push('\n');
    text
}
