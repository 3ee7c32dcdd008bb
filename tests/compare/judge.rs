//! One input through the programs, and the comparison of what they print.

use crate::input::misshapen;
use crate::options::Options;
use crate::process;
use std::time::Duration;

/// The program's lines, if it ended in time and in order.
pub fn lines(
    command: &str,
    more: &[&str],
    input: &[u8],
    limit: Duration,
) -> Result<Vec<String>, String> {
    let ended = process::run(command, more, input, limit)?;
    let text = String::from_utf8_lossy(&ended.output);
    if !text.is_empty() && !text.ends_with('\n') {
        return Err("the last line has no end".to_string());
    }
    let lines: Vec<String> = text.lines().map(str::to_string).collect();
    // The paper names no exit status for an early end of the input.
    let short = lines.iter().rev().take(2).any(|line| line == "short input");
    match ended.status {
        Some(0) => Ok(lines),
        Some(_) if short => Ok(lines),
        Some(status) => Err(format!("ended with status {status}: {}", first(&ended.errors))),
        None => Err(format!("was ended by a signal: {}", first(&ended.errors))),
    }
}

fn first(errors: &str) -> &str {
    errors.lines().next().unwrap_or("")
}

/// Programs that cannot be used at all are told once, not once an input.
pub fn usable(command: &str, limit: Duration) -> Result<(), String> {
    let told = lines(command, &[], &[], limit)
        .map_err(|error| format!("`{command}` cannot be used: {error}"))?;
    if told.is_empty() {
        return Err(format!("`{command}` cannot be used: nothing printed for empty input"));
    }
    Ok(())
}

pub struct Verdict {
    pub results: Vec<Result<(), String>>,
    /// The second program's lines without the image.
    pub lines: Vec<String>,
}

/// `name` tells where the input comes from, in words that can name a file.
pub fn compare(options: &Options, name: &str, input: &[u8]) -> Verdict {
    let second = options.second.as_deref().unwrap_or("");
    let mut told = match lines(second, &["--image"], input, options.limit) {
        Ok(told) => told,
        Err(error) => return failed(name, input, &format!("second {error}")),
    };
    let image = told.pop().unwrap_or_default();
    let plain: Vec<&str> = told.iter().map(String::as_str).collect();
    if let Some(what) = misshapen(input, &plain) {
        return failed(name, input, &format!("second printed {what}"));
    }
    let mut results = Vec::new();
    if let Some(player) = &options.player {
        let theirs = lines(player, &[], input, options.limit);
        results.push(differ("player", &theirs, &told).map_err(|what| report(name, input, &what)));
    }
    let mut whole = told.clone();
    whole.push(image);
    if let Some(teller) = &options.teller {
        let theirs = lines(teller, &[], input, options.limit);
        results.push(differ("teller", &theirs, &whole).map_err(|what| report(name, input, &what)));
    }
    Verdict { results, lines: told }
}

fn failed(name: &str, input: &[u8], what: &str) -> Verdict {
    Verdict { results: vec![Err(report(name, input, what))], lines: Vec::new() }
}

/// The first line in which a program differs from the second.
pub fn differ(
    who: &str,
    theirs: &Result<Vec<String>, String>,
    ours: &[String],
) -> Result<(), String> {
    let theirs = theirs.as_ref().map_err(|error| format!("{who} {error}"))?;
    if theirs == ours {
        return Ok(());
    }
    let longest = theirs.len().max(ours.len());
    let place = (0..longest).find(|place| theirs.get(*place) != ours.get(*place)).unwrap_or(0);
    let nothing = "(no line)".to_string();
    let left = theirs.get(place).unwrap_or(&nothing);
    let right = ours.get(place).unwrap_or(&nothing);
    let from = parting(left, right).saturating_sub(40);
    Err(format!(
        "command {}\n  {who}: {}\n  second: {}",
        place + 1,
        window(left, from),
        window(right, from)
    ))
}

fn parting(left: &str, right: &str) -> usize {
    left.bytes().zip(right.bytes()).take_while(|(one, other)| one == other).count()
}

/// Long lines are shown around the place where they part.
fn window(line: &str, from: usize) -> String {
    let bytes = line.as_bytes();
    if bytes.len() <= 160 {
        return line.to_string();
    }
    let part = &bytes[from.min(bytes.len())..(from + 120).min(bytes.len())];
    format!("(from character {from}) ...{}...", String::from_utf8_lossy(part))
}

/// Keeps the input and says where.
pub fn report(name: &str, input: &[u8], what: &str) -> String {
    let file = format!("target/differences/{}.input", name.replace([' ', '/'], "-"));
    let kept = std::fs::create_dir_all("target/differences")
        .and_then(|()| std::fs::write(&file, input))
        .map_or_else(|error| format!("cannot be kept: {error}"), |()| file);
    format!("difference: {name}, {what}\n  input: {kept}")
}
