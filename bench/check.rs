//! Whether laps tell the sums that follow from the second program's lines on the same commands, one lap after the other.

use crate::lists::{self, Family};
use crate::{cards, process, value, values};

const LAPS: u16 = 3;

fn bytes(hexadecimal: &str) -> Result<Vec<u8>, String> {
    if hexadecimal == "-" {
        return Ok(Vec::new());
    }
    let digit = |at: usize| u8::from_str_radix(hexadecimal.get(at..at + 2)?, 16).ok();
    (0..hexadecimal.len()).step_by(2).map(digit).collect::<Option<_>>().ok_or(format!("{hexadecimal}: no hexadecimal"))
}

/// The two sums, from the lines of `second --image`.
fn sums(lines: &str) -> Result<String, String> {
    let (mut answers, mut left) = (0_u32, 0_u32);
    for line in lines.lines() {
        let words: Vec<&str> = line.split(' ').collect();
        match words[..] {
            ["image", image] => {
                for (i, byte) in bytes(image)?.into_iter().enumerate() {
                    left = left.wrapping_add((i as u32 + 1).wrapping_mul(u32::from(byte)));
                }
            }
            [_, host, response] => {
                let response = bytes(response)?;
                let host: u32 = host.parse().map_err(|_| format!("{line}: no host answer"))?;
                let sum: u32 = response.iter().map(|byte| u32::from(*byte)).sum();
                answers = answers.wrapping_add(host * 7 + response.len() as u32 * 3 + sum);
            }
            _ => return Err(format!("the second program told: {line}")),
        }
    }
    Ok(format!("{answers} {left}\n"))
}

struct Tally {
    passed: usize,
    failed: usize,
}

impl Tally {
    fn judge(&mut self, what: &str, wanted: &str, told: &str) {
        if wanted == told {
            self.passed += 1;
        } else {
            self.failed += 1;
            println!("{what}: told {}, not {}", told.trim_end(), wanted.trim_end());
        }
    }
}

fn family(tally: &mut Tally, second: &str, programs: &[String], files: usize, family: &Family) -> Result<(), String> {
    let image = cards::image(files);
    let commands = lists::commands(family);
    let repeated: Vec<Vec<u8>> = (0..LAPS).flat_map(|_| commands.clone()).collect();
    let lines = process::run(&format!("{second} --image"), &lists::playing(&image, &repeated))?.output;
    let wanted = sums(&lines)?;
    let refused = lines.lines().filter(|line| line.contains(" 0 94") || line.contains(" 0 98")).count();
    if refused > usize::from(LAPS) {
        return Err(format!("{}: {refused} commands are refused", family.name));
    }
    for program in programs {
        for mode in [0, 1] {
            let told = process::run(program, &lists::laps(mode, LAPS, &lists::playing(&image, &commands)))?.output;
            tally.judge(&format!("{program}, {files} files, {}, mode {mode}", family.name), &wanted, &told);
        }
    }
    Ok(())
}

/// A list that is cut anywhere, and an image that is none.
fn edges(tally: &mut Tally, program: &str) -> Result<(), String> {
    let commands = [vec![0xA0, 0xF2, 0, 0, 22], vec![0xA0], vec![]];
    let whole = lists::laps(0, 2, &lists::playing(&[0, 2, 0xC0], &commands));
    for cut in 0..whole.len() {
        tally.judge(&format!("{program}, cut at {cut}"), "short input\n", &process::run(program, &whole[..cut])?.output);
    }
    for mode in [0, 1] {
        let input = lists::laps(mode, 2, &lists::playing(&[0, 2, 0xC0], &commands));
        tally.judge(&format!("{program}, no image"), &format!("42 {}\n", 4 + 3 * 0xC0), &process::run(program, &input)?.output);
        let input = lists::laps(mode, 3, &lists::playing(&cards::image(5), &commands[1..]));
        let told = process::run(program, &input)?.output;
        let first = told.split(' ').next().unwrap_or_default().to_string();
        tally.judge(&format!("{program}, short commands"), "168", &first);
    }
    Ok(())
}

pub fn run(words: &[String]) -> Result<(), String> {
    let mut tally = Tally { passed: 0, failed: 0 };
    let programs = values(words, "--laps");
    let second = value(words, "--second")?;
    for files in cards::SIZES {
        for each in &lists::FAMILIES {
            family(&mut tally, &second, &programs, files, each)?;
        }
    }
    for program in &programs {
        edges(&mut tally, program)?;
    }
    println!("{} passed, {} failed", tally.passed, tally.failed);
    Ok(())
}
