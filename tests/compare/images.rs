//! The comparison on sound images, edge images and broken images.

use crate::input::{frame, of_run};
use crate::judge::{self, Verdict};
use crate::options::Options;
use crate::pairs::Pairs;
use crate::prng::Prng;
use crate::runs::Scout;
use crate::tally::{for_all, Tally};
use crate::{broken, edges, sound, sweep};

/// Fewer images need not give every pair of instruction and status word.
const ENOUGH: usize = 100;

pub fn run(options: &Options, tally: &mut Tally) {
    named(options, tally);
    let swept = sweep::runs();
    let verdicts = for_all(options.jobs, swept.len() + options.count, |place| {
        let (name, input) = match swept.get(place) {
            Some(commands) => {
                (format!("sweep {place}"), of_run(&edges::base().to_bytes(), commands))
            }
            None => {
                let number = options.first + place - swept.len();
                (format!("seed {} image {number}", options.seed), input(options, number))
            }
        };
        let verdict = judge::compare(options, &name, &input);
        (pairs_of(&input, &verdict), verdict.results)
    });
    let mut pairs = Pairs::default();
    for (given, results) in verdicts {
        pairs.join(given);
        tally.add(results);
    }
    if options.table {
        pairs.print();
    }
    if options.count < ENOUGH {
        println!("pairs are not judged under {ENOUGH} images");
        return;
    }
    tally.pass(pairs.distinct());
    for complaint in pairs.complaints() {
        tally.fail(&complaint);
    }
}

fn pairs_of(input: &[u8], verdict: &Verdict) -> Pairs {
    let mut pairs = Pairs::default();
    for (command, line) in frame(input).commands.iter().zip(&verdict.lines) {
        pairs.add(command, line);
    }
    pairs
}

/// The input of image `number`: now and then it ends early or goes on.
pub fn input(options: &Options, number: usize) -> Vec<u8> {
    let mut prng = Prng::new(options.seed, number as u64);
    let shelf = sound::image(&mut prng);
    let commands = Scout::new(&shelf, &mut prng).run(options.commands);
    let mut input = of_run(&shelf.to_bytes(), &commands);
    match prng.below(40) {
        0 => input.truncate(prng.below(input.len())),
        1 => input.truncate(input.len() - 1 - prng.below(60).min(input.len() - 1)),
        2 => input.extend(prng.bytes(3)),
        _ => {}
    }
    input
}

/// Edge images are played, broken images are refused: that much is known
/// without any program.
fn named(options: &Options, tally: &mut Tally) {
    let mut list: Vec<(String, Vec<u8>, &str)> = Vec::new();
    for (name, image) in edges::images() {
        list.push((format!("edge {name}"), image, "0"));
    }
    for (number, entry) in broken::images().into_iter().enumerate() {
        list.push((format!("broken {} number {number}", entry.rule), entry.image, "1"));
    }
    let results = for_all(options.jobs, list.len(), |place| {
        let (name, image, host) = &list[place];
        let commands: [&[u8]; 3] = [&[0xA0, 0xF2, 0, 0, 0x16], &[0xA0], &[0, 0, 0, 0, 0]];
        let input = of_run(image, &commands.map(<[u8]>::to_vec));
        let verdict = judge::compare(options, name, &input);
        let first = verdict.lines.first().cloned().unwrap_or_default();
        let mut results = verdict.results;
        if !first.starts_with(&format!("1 {host} ")) {
            let what = format!("command 1: `{first}` where host answer {host} is right");
            results.push(Err(judge::report(name, &input, &what)));
        }
        results
    });
    for result in results {
        tally.add(result);
    }
}
