//! The playing program's input and what its output must look like.

pub fn number(value: usize) -> [u8; 2] {
    (value as u16).to_be_bytes()
}

pub fn counted(bytes: &[u8]) -> Vec<u8> {
    [&number(bytes.len())[..], bytes].concat()
}

pub fn of_run(image: &[u8], commands: &[Vec<u8>]) -> Vec<u8> {
    let mut input = counted(image);
    input.extend(number(commands.len()));
    for command in commands {
        input.extend(counted(command));
    }
    input
}

/// How far the input goes, read from the input alone.
pub struct Frame {
    pub commands: Vec<Vec<u8>>,
    pub short: bool,
}

pub fn frame(input: &[u8]) -> Frame {
    let mut commands = Vec::new();
    let short = read_frame(input, &mut commands).is_none();
    Frame { commands, short }
}

fn read_frame(input: &[u8], commands: &mut Vec<Vec<u8>>) -> Option<()> {
    let mut rest = input;
    take_counted(&mut rest)?;
    let count = take(&mut rest, 2)?;
    for _ in 0..u16::from_be_bytes([count[0], count[1]]) {
        commands.push(take_counted(&mut rest)?.to_vec());
    }
    Some(())
}

fn take<'a>(rest: &mut &'a [u8], count: usize) -> Option<&'a [u8]> {
    let (taken, after) = rest.split_at_checked(count)?;
    *rest = after;
    Some(taken)
}

fn take_counted<'a>(rest: &mut &'a [u8]) -> Option<&'a [u8]> {
    let count = take(rest, 2)?;
    take(rest, usize::from(u16::from_be_bytes([count[0], count[1]])))
}

/// What is wrong with the form of the lines, without judging the answers.
pub fn misshapen(input: &[u8], lines: &[&str]) -> Option<String> {
    let frame = frame(input);
    let wanted = frame.commands.len() + usize::from(frame.short);
    if lines.len() != wanted {
        return Some(format!("{} lines instead of {wanted}", lines.len()));
    }
    for (place, line) in lines.iter().take(frame.commands.len()).enumerate() {
        if !well_formed(line, place + 1) {
            return Some(format!("line {} is `{line}`", place + 1));
        }
    }
    let last = lines.last().copied().unwrap_or_default();
    (frame.short && last != "short input").then(|| format!("`{last}` instead of `short input`"))
}

fn well_formed(line: &str, number: usize) -> bool {
    let words: Vec<&str> = line.split(' ').collect();
    let [count, host, response] = words[..] else {
        return false;
    };
    let hexadecimal = |byte: u8| byte.is_ascii_digit() || (b'A'..=b'F').contains(&byte);
    let told = match host {
        "0" => response.len() >= 4 && response.len() % 2 == 0 && response.bytes().all(hexadecimal),
        "1" | "4" => response == "-",
        _ => false,
    };
    count == number.to_string() && told
}
