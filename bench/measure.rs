//! Timing the programs on the same laps.

use crate::lists::{self, Family};
use crate::{cards, process};
use std::time::Instant;

/// The shorter run, whose time is taken away.
const FEW: u16 = 1;
/// Processor time that the programs' longer runs together should take, and the least that tells anything, in seconds. A start alone takes
/// 0.05 to 0.15 under the emulator, and swings by 0.01.
const WANTED: f64 = 1.0;
const ENOUGH: f64 = 0.2;

/// Laps to begin with: a guess that is corrected.
fn guess(files: usize, mode: u8) -> u16 {
    if mode == 0 { (24_000 / (files + 10)) as u16 } else { 5000 }
}

/// The programs: the C player, the Rattle program, and the C player with an index kept between commands.
pub const PROGRAMS: usize = 3;

/// One family on one image in one mode. Times are seconds for one command, one for each round, of each program.
pub struct Case {
    pub files: usize,
    pub family: &'static str,
    pub mode: u8,
    pub laps: u16,
    pub times: [Vec<f64>; PROGRAMS],
    few: [f64; PROGRAMS],
    playing: Vec<u8>,
    commands: usize,
}

impl Case {
    fn new(files: usize, family: &Family, mode: u8) -> Case {
        let commands = lists::commands(family);
        let playing = lists::playing(&cards::image(files), &commands);
        Case {
            files,
            family: family.name,
            mode,
            laps: guess(files, mode),
            times: [const { Vec::new() }; PROGRAMS],
            few: [0.0; PROGRAMS],
            playing,
            commands: commands.len(),
        }
    }

    /// Seconds of each program for that many laps; their sums must be equal.
    fn each(&self, programs: &[String; PROGRAMS], laps: u16) -> Result<[f64; PROGRAMS], String> {
        let input = lists::laps(self.mode, laps, &self.playing);
        let mut seconds = [0.0; PROGRAMS];
        let mut first = String::new();
        for (program, seconds) in programs.iter().zip(&mut seconds) {
            let ended = process::run(program, &input)?;
            if first.is_empty() {
                first = ended.output.clone();
            }
            if ended.output != first || first == "short input\n" {
                let what = format!("{} files, {}, mode {}, {laps} laps", self.files, self.family, self.mode);
                return Err(format!("{what}: the sums differ: {}, {}", first.trim_end(), ended.output.trim_end()));
            }
            *seconds = ended.seconds;
        }
        Ok(seconds)
    }

    /// Seconds of each program for the laps beyond the few.
    fn beyond(&self, programs: &[String; PROGRAMS]) -> Result<[f64; PROGRAMS], String> {
        let mut many = self.each(programs, self.laps)?;
        many.iter_mut().zip(self.few).for_each(|(seconds, few)| *seconds -= few);
        Ok(many)
    }

    /// Times the few laps, the median of three, and finds how many laps the rounds take.
    fn set_out(&mut self, programs: &[String; PROGRAMS]) -> Result<(), String> {
        let few = [self.each(programs, FEW)?, self.each(programs, FEW)?, self.each(programs, FEW)?];
        for (k, least) in self.few.iter_mut().enumerate() {
            let mut times = few.map(|seconds| seconds[k]);
            times.sort_by(f64::total_cmp);
            *least = times[1];
        }
        loop {
            let sum: f64 = self.beyond(programs)?.iter().sum();
            if sum >= ENOUGH || self.laps == u16::MAX {
                let scaled = f64::from(self.laps) * WANTED / sum.max(0.001);
                self.laps = scaled.clamp(10.0, f64::from(u16::MAX)) as u16;
                return Ok(());
            }
            self.laps = self.laps.saturating_mul(4);
        }
    }

    fn round(&mut self, programs: &[String; PROGRAMS]) -> Result<(), String> {
        let seconds = self.beyond(programs)?;
        let played = f64::from(self.laps - FEW) * self.commands as f64;
        for (times, seconds) in self.times.iter_mut().zip(seconds) {
            times.push(seconds / played);
        }
        Ok(())
    }
}

pub struct Results {
    pub cases: Vec<Case>,
    pub rounds: usize,
}

/// Rounds over all cases, as many as are asked for and fit into the seconds.
pub fn all(programs: &[String; PROGRAMS], rounds: usize, seconds: u64) -> Result<Results, String> {
    let start = Instant::now();
    let mut cases = Vec::new();
    for mode in [0, 1] {
        for files in cards::SIZES {
            cases.extend(lists::FAMILIES.iter().map(|family| Case::new(files, family, mode)));
        }
    }
    for case in &mut cases {
        case.set_out(programs)?;
    }
    let mut done = 0;
    while done < rounds {
        let before = start.elapsed();
        for case in &mut cases {
            case.round(programs)?;
        }
        done += 1;
        let round = start.elapsed() - before;
        eprintln!("round {done}: {} s", round.as_secs());
        if (start.elapsed() + round).as_secs() > seconds {
            break;
        }
    }
    Ok(Results { cases, rounds: done })
}
