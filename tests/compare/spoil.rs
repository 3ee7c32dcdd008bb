//! Commands spoilt in one place: class, instruction, P1, P2, P3 or length.

use crate::prng::Prng;

pub fn command(prng: &mut Prng, mut command: Vec<u8>) -> Vec<u8> {
    if command.len() < 5 {
        return command;
    }
    match prng.below(9) {
        0 => command[0] = prng.pick(&[0x00, 0x80, 0xA1, 0xB0, 0xFF]),
        1 => command[1] = unknown(prng),
        2 => command[2] = prng.byte(),
        3 => command[3] = prng.pick(&[0x00, 0x01, 0x02, 0x04, 0x05, 0x12, 0x14, 0x80, 0xFF]),
        4 => command[4] = other_length(prng, command[4]),
        5 => lengthen_both(prng, &mut command),
        6 => command.truncate(command.len() - 1),
        7 => command.push(prng.byte()),
        _ => command.truncate(prng.below(5)),
    }
    command
}

fn unknown(prng: &mut Prng) -> u8 {
    let any = prng.byte();
    // The toolkit's, RUN GSM ALGORITHM, the code D0 of an older table, others.
    prng.pick(&[0x10, 0x12, 0x14, 0xC2, 0x88, 0xD0, 0xE0, 0x42, 0x40, any])
}

fn other_length(prng: &mut Prng, length: u8) -> u8 {
    let any = prng.byte();
    prng.pick(&[0, length.wrapping_add(1), length.wrapping_sub(1), any])
}

/// Another P3 with as many data bytes.
fn lengthen_both(prng: &mut Prng, command: &mut Vec<u8>) {
    let sends = command.len() > 5;
    command[4] = other_length(prng, command[4]);
    if sends {
        command.resize(5 + usize::from(command[4]), 0x31);
    }
}
