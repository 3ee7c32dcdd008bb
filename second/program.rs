//! The playing program.

use crate::hexadecimal::text;
use crate::input::{Input, Short};
use crate::play::play;
use crate::session::Session;
use crate::shelf::Image;
use crate::{parse, write};
use std::io::Write;

pub fn run(tell_image: bool) {
    let mut input = Input::step_by_step();
    let mut bytes = Vec::new();
    if session(&mut input, &mut bytes).is_err() {
        line("short input");
    }
    if tell_image {
        line(&format!("image {}", text(&bytes)));
    }
}

/// `bytes` becomes the image afterwards; it stays empty where the input ends
/// before the image is whole.
fn session(input: &mut Input, bytes: &mut Vec<u8>) -> Result<(), Short> {
    *bytes = input.counted()?;
    let mut card = parse::image(bytes).ok();
    let played = commands(input, card.as_mut());
    if let Some(card) = card {
        *bytes = write::image(&card);
    }
    played
}

fn commands(input: &mut Input, mut card: Option<&mut Image>) -> Result<(), Short> {
    let mut session = Session::reset();
    let count = input.number()?;
    for number in 1..=count {
        let command = input.counted()?;
        let told = match &mut card {
            None => "1 -".to_string(),
            Some(card) => match play(card, &mut session, &command) {
                Some(response) => format!("0 {}", text(&response)),
                None => "4 -".to_string(),
            },
        };
        line(&format!("{number} {told}"));
    }
    Ok(())
}

fn line(text: &str) {
    let mut out = std::io::stdout().lock();
    let _ = out.write_all(text.as_bytes());
    let _ = out.write_all(b"\n");
    let _ = out.flush();
}
