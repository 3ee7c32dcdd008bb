//! Running a program on given input and taking its processor time.

use std::fs::File;
use std::process::{Command, Stdio};

const INPUT: &str = "target/bench/input";

/// As <sys/resource.h> has it on 64-bit Linux: two times, and 14 numbers of no use here.
#[repr(C)]
struct Usage {
    user: [i64; 2],
    system: [i64; 2],
    more: [i64; 14],
}

extern "C" {
    fn getrusage(who: i32, usage: *mut Usage) -> i32;
}

const ENDED_CHILDREN: i32 = -1;

/// Processor time of all children that have ended, in seconds.
fn spent() -> Result<f64, String> {
    let mut usage = Usage { user: [0; 2], system: [0; 2], more: [0; 14] };
    // SAFETY: `usage` is a whole struct rusage, which the call fills.
    if unsafe { getrusage(ENDED_CHILDREN, &mut usage) } != 0 || usage.more[0] < 0 {
        return Err("the processor time cannot be had".to_string());
    }
    let seconds = |time: [i64; 2]| time[0] as f64 + time[1] as f64 / 1e6;
    Ok(seconds(usage.user) + seconds(usage.system))
}

pub struct Ended {
    pub output: String,
    pub seconds: f64,
}

/// Runs `command`, whose words are separated by spaces.
pub fn run(command: &str, input: &[u8]) -> Result<Ended, String> {
    let told = |error: std::io::Error| format!("{command}: {error}");
    std::fs::write(INPUT, input).map_err(told)?;
    let before = spent()?;
    let mut words = command.split_whitespace();
    let output = Command::new(words.next().ok_or("no program is named")?)
        .args(words)
        .stdin(File::open(INPUT).map_err(told)?)
        .stderr(Stdio::inherit())
        .output()
        .map_err(told)?;
    let seconds = spent()? - before;
    if !output.status.success() {
        return Err(format!("{command}: {}", output.status));
    }
    Ok(Ended { output: String::from_utf8_lossy(&output.stdout).into_owned(), seconds })
}
