//! The second program: plays commands on a card image, or decodes and encodes
//! elementary files. Written from paper 01 and GSM 11.11 / TS 51.011 alone.
//!
//! Plain: standard input holds a count and the image, the number of commands,
//! and each command after its count. One line a command goes out:
//! `number host response`. With `--image` a last line `image HEX` follows.
//! With `coder` the input holds cases for the coder; see coder/mod.rs.

mod binary;
mod coder;
mod codes;
mod forms;
mod hexadecimal;
mod increase;
mod input;
mod parse;
mod play;
mod program;
mod records;
mod rules;
mod select;
mod session;
mod shelf;
mod write;

fn main() {
    let arguments: Vec<String> = std::env::args().skip(1).collect();
    let words: Vec<&str> = arguments.iter().map(String::as_str).collect();
    match words[..] {
        [] => program::run(false),
        ["--image"] => program::run(true),
        ["coder"] => coder::run(),
        _ => {
            eprintln!("usage: second [--image | coder]");
            std::process::exit(2);
        }
    }
}
