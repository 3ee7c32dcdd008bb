//! Running a program on given input, with a time limit.

use std::io::{Read, Write};
use std::process::{Child, Command, Stdio};
use std::sync::mpsc::{channel, Receiver};
use std::time::{Duration, Instant};

/// No program has reason to print more than this.
const MOST_OUTPUT: u64 = 64 << 20;

pub struct Ended {
    pub output: Vec<u8>,
    pub errors: String,
    /// None where a signal ended it.
    pub status: Option<i32>,
}

/// Runs `command`, whose words are separated by spaces, with further words.
pub fn run(command: &str, more: &[&str], input: &[u8], limit: Duration) -> Result<Ended, String> {
    let mut words = command.split_whitespace();
    let name = words.next().ok_or("no program is named")?;
    let mut child = Command::new(name)
        .args(words)
        .args(more)
        .stdin(Stdio::piped())
        .stdout(Stdio::piped())
        .stderr(Stdio::piped())
        .spawn()
        .map_err(|error| format!("cannot run {name}: {error}"))?;
    feed(&mut child, input.to_vec());
    let output = collect(child.stdout.take(), MOST_OUTPUT);
    let errors = collect(child.stderr.take(), 2000);
    let deadline = Instant::now() + limit;
    let output = match output.recv_timeout(limit) {
        Ok(output) => output,
        Err(_) => return Err(stop(&mut child, limit)),
    };
    let status = wait(&mut child, deadline).ok_or_else(|| stop(&mut child, limit))?;
    let errors = errors.recv_timeout(Duration::from_secs(1)).unwrap_or_default();
    let errors = String::from_utf8_lossy(&errors).trim().to_string();
    Ok(Ended { output, errors, status: status.code() })
}

fn feed(child: &mut Child, input: Vec<u8>) {
    if let Some(mut pipe) = child.stdin.take() {
        // A program that stops early closes its end; that is no failure here.
        std::thread::spawn(move || pipe.write_all(&input).is_ok());
    }
}

fn collect<R: Read + Send + 'static>(pipe: Option<R>, most: u64) -> Receiver<Vec<u8>> {
    let (sender, receiver) = channel();
    std::thread::spawn(move || {
        let mut bytes = Vec::new();
        if let Some(pipe) = pipe {
            let _ = pipe.take(most).read_to_end(&mut bytes);
        }
        let _ = sender.send(bytes);
    });
    receiver
}

fn wait(child: &mut Child, deadline: Instant) -> Option<std::process::ExitStatus> {
    loop {
        if let Ok(Some(status)) = child.try_wait() {
            return Some(status);
        }
        if Instant::now() > deadline {
            return None;
        }
        std::thread::sleep(Duration::from_micros(300));
    }
}

fn stop(child: &mut Child, limit: Duration) -> String {
    let _ = child.kill();
    let _ = child.wait();
    format!("did not end within {} s", limit.as_secs())
}
