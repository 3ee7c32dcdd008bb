//! Random input, prefixes of an input, and input that comes step by step.

use crate::input::{misshapen, number, of_run};
use crate::options::Options;
use crate::prng::Prng;
use crate::tally::{for_all, Tally};
use crate::{cases, images, judge, sound};

pub fn run(options: &Options, tally: &mut Tally) {
    let results = for_all(options.jobs, options.count, |place| {
        let number = options.first + place;
        let input = input(options, number);
        let name = format!("seed {} random {number}", options.seed);
        judge::compare(options, &name, &input).results
    });
    for result in results {
        tally.add(result);
    }
}

fn input(options: &Options, place: usize) -> Vec<u8> {
    let mut prng = Prng::new(options.seed ^ 0x5241_4E44, place as u64);
    match place % 4 {
        0 => {
            let count = prng.below(400);
            prng.bytes(count)
        }
        1 => small_counts(&mut prng),
        2 => {
            let image = sound::image(&mut prng).to_bytes();
            let commands: Vec<Vec<u8>> = (0..20).map(|_| half_random(&mut prng)).collect();
            of_run(&image, &commands)
        }
        _ => {
            let mut input = images::input(options, place);
            for _ in 0..prng.between(1, 4) {
                let at = prng.below(input.len());
                input[at] = prng.byte();
            }
            input
        }
    }
}

/// Random bytes whose counts are small, so that commands are reached.
fn small_counts(prng: &mut Prng) -> Vec<u8> {
    let image = prng.below(60);
    let mut input = number(image).to_vec();
    input.extend(prng.bytes(image));
    input.extend(number(prng.below(12)));
    for _ in 0..prng.below(12) {
        let length = prng.below(12);
        input.extend(number(length));
        input.extend(prng.bytes(length));
    }
    input
}

fn half_random(prng: &mut Prng) -> Vec<u8> {
    let length = prng.between(0, 25);
    let mut command = prng.bytes(length);
    let known = [0xA4, 0xF2, 0xB0, 0xD6, 0xB2, 0xDC, 0xA2, 0x32, 0x20, 0x2C, 0x04, 0x44, 0xC0];
    if length >= 5 && prng.percent(90) {
        command[0] = 0xA0;
        command[1] = prng.pick(&known);
        command[2] = prng.pick(&[0, 0, 1]);
        command[3] = prng.pick(&[0, 1, 2, 3, 4]);
    }
    command
}

/// Every prefix of the input ends early exactly where it is cut before the
/// end of the last command.
pub fn prefixes(options: &Options, tally: &mut Tally) {
    for path in &options.paths {
        let input = match cases::input_of(path) {
            Ok(input) => input,
            Err(error) => {
                tally.fail(&error);
                continue;
            }
        };
        let results = for_all(options.jobs, input.len() + 1, |length| {
            let name = format!("prefix {length} of {path}");
            judge::compare(options, &name, &input[..length]).results
        });
        for result in results {
            tally.add(result);
        }
    }
}

/// Feeds the commands one by one and waits for each line before the next.
pub fn steps(options: &Options, tally: &mut Tally) {
    for path in &options.paths {
        for player in options.player.iter().chain(&options.second) {
            let result = cases::input_of(path).and_then(|input| {
                let told = crate::steps::run(player, &input, options.limit)?;
                let told: Vec<&str> = told.iter().map(String::as_str).collect();
                misshapen(&input, &told).map_or(Ok(()), Err)
            });
            tally.add(vec![result.map_err(|what| format!("step by step, `{player}`: {what}"))]);
        }
    }
}
