//! The comparison of the coders.

use crate::coder_values::{changed, random, two_changed, two_places, valid};
use crate::input::{counted, number};
use crate::judge::{differ, lines, report};
use crate::options::Options;
use crate::prng::Prng;
use crate::tally::{for_all, Tally};

#[derive(Clone)]
pub struct Entry {
    pub kind: u8,
    pub operation: u8,
    pub file: Vec<u8>,
    pub value: Vec<u8>,
}

/// Cases a process run.
const BATCH: usize = 4_000;

pub fn input(entries: &[Entry]) -> Vec<u8> {
    let mut input = number(entries.len()).to_vec();
    for entry in entries {
        input.extend([entry.kind, entry.operation]);
        input.extend(counted(&entry.file));
        input.extend(counted(&entry.value));
    }
    input
}

pub fn run(options: &Options, tally: &mut Tally) {
    let mut prng = Prng::new(options.seed ^ 0x434F_4445, 0);
    let mut entries = changed(&mut prng);
    for _ in 0..options.count {
        entries.push(random(&mut prng));
    }
    for _ in 0..options.count.min(2_000) {
        entries.push(plmn(prng.below(1 << 24)));
    }
    let batches: Vec<&[Entry]> = entries.chunks(BATCH).collect();
    let results = for_all(options.jobs, batches.len(), |place| {
        compare(options, &format!("seed {} coder {place}", options.seed), &input(batches[place]))
            .map(|()| batches[place].len())
    });
    count(tally, results);
    two_bytes(options, tally);
    prefixes(options, &mut prng, tally);
    if options.all_plmn {
        all_plmn(options, tally);
    }
}

/// Each batch counts by its cases if it passes.
fn count(tally: &mut Tally, results: Vec<Result<usize, String>>) {
    for result in results {
        match result {
            Ok(cases) => tally.pass(cases),
            Err(what) => tally.fail(&what),
        }
    }
}

fn compare(options: &Options, name: &str, input: &[u8]) -> Result<(), String> {
    let second = options.second.as_deref().unwrap_or("");
    let coder = options.coder.as_deref().unwrap_or("");
    let ours = lines(second, &["coder"], input, options.limit)
        .map_err(|error| report(name, input, &format!("second {error}")))?;
    let theirs = lines(coder, &[], input, options.limit);
    differ("coder", &theirs, &ours).map_err(|what| report(name, input, &what))
}

fn plmn(value: usize) -> Entry {
    let file = value.to_be_bytes()[5..].to_vec();
    Entry { kind: 3, operation: 0, file, value: Vec::new() }
}

fn all_plmn(options: &Options, tally: &mut Tally) {
    let size = 1 << 14;
    let results = for_all(options.jobs, (1 << 24) / size, |place| {
        let entries: Vec<Entry> = (place * size..(place + 1) * size).map(plmn).collect();
        compare(options, &format!("all PLMN entries {place}"), &input(&entries)).map(|()| size)
    });
    count(tally, results);
}

/// Every change of two bytes of the shortest valid file: of the kinds whose
/// files are short, and where it is asked for of every kind.
fn two_bytes(options: &Options, tally: &mut Tally) {
    let size = 1 << 14;
    let kinds: &[u8] = if options.all_changes { &[1, 2, 3, 4, 5, 6] } else { &[3, 4, 6] };
    let places: Vec<(u8, usize, usize)> = kinds.iter().flat_map(|&kind| two_places(kind)).collect();
    let results = for_all(options.jobs, 4 * places.len(), |task| {
        let (kind, one, two) = places[task / 4];
        let part = task % 4 * size..(task % 4 + 1) * size;
        let name = format!("kind {kind}, bytes {one} and {two}, from {}", part.start);
        let entries: Vec<Entry> = part.map(|bytes| two_changed(kind, one, two, bytes)).collect();
        compare(options, &name, &input(&entries)).map(|()| size)
    });
    count(tally, results);
}

/// Input that ends early, at every place of a short input, and bytes after
/// the last case.
fn prefixes(options: &Options, prng: &mut Prng, tally: &mut Tally) {
    let entries: Vec<Entry> = (2..=4).map(|kind| valid(prng, kind, 0)).collect();
    let mut whole = input(&entries);
    let length = whole.len();
    whole.extend([0, 0, 0]);
    let results = for_all(options.jobs, whole.len() + 1, |cut| {
        let name = format!("seed {} coder prefix {cut}", options.seed);
        let part = &whole[..cut];
        compare(options, &name, part)?;
        let ours = lines(options.second.as_deref().unwrap_or(""), &["coder"], part, options.limit);
        let last = ours.unwrap_or_default().pop().unwrap_or_default();
        if (last == "short input") == (cut < length) {
            return Ok(());
        }
        Err(report(&name, part, "`short input` stands where it should not, or is missing"))
    });
    tally.add(results);
}
