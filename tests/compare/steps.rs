//! A talk with a program: each line must come before more input is given.

use crate::input::{counted, frame};
use std::io::{BufRead, BufReader, Write};
use std::process::{Command, Stdio};
use std::sync::mpsc::channel;
use std::time::Duration;

/// The lines of a whole input, each of which came in time.
pub fn run(command: &str, input: &[u8], limit: Duration) -> Result<Vec<String>, String> {
    let commands = frame(input).commands;
    let body: usize = commands.iter().map(|command| command.len() + 2).sum();
    let start = input.get(..input.len() - body).unwrap_or(input);
    let mut words = command.split_whitespace();
    let mut child = Command::new(words.next().unwrap_or(""))
        .args(words)
        .stdin(Stdio::piped())
        .stdout(Stdio::piped())
        .spawn()
        .map_err(|error| format!("cannot run: {error}"))?;
    let mut pipe = child.stdin.take().ok_or("no standard input")?;
    let output = child.stdout.take().ok_or("no standard output")?;
    let (sender, receiver) = channel();
    std::thread::spawn(move || {
        for line in BufReader::new(output).lines().map_while(Result::ok) {
            let _ = sender.send(line);
        }
    });
    let mut told = Vec::new();
    let mut failure = pipe.write_all(start).err().map(|error| error.to_string());
    for (place, command) in commands.iter().enumerate() {
        if failure.is_some() {
            break;
        }
        let _ = pipe.write_all(&counted(command)).and_then(|()| pipe.flush());
        match receiver.recv_timeout(limit) {
            Ok(line) => told.push(line),
            Err(_) => failure = Some(format!("no line for command {}", place + 1)),
        }
    }
    drop(pipe);
    let _ = child.kill();
    let _ = child.wait();
    failure.map_or(Ok(told), Err)
}
