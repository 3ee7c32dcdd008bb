//! Every value of each header byte, for every instruction.

use crate::runs::apdu;

/// Instruction, P1, P2 and P3 as they are right, and whether it sends data.
const RIGHT: [(u8, u8, u8, u8, bool); 17] = [
    (0xA4, 0, 0, 2, true),
    (0xF2, 0, 0, 22, false),
    (0xB0, 0, 0, 4, false),
    (0xD6, 0, 0, 4, true),
    (0xB2, 1, 4, 2, false),
    (0xDC, 1, 4, 2, true),
    (0xA2, 0, 0, 1, true),
    (0x32, 0, 0, 3, true),
    (0x20, 0, 1, 8, true),
    (0x24, 0, 1, 16, true),
    (0x26, 0, 1, 8, true),
    (0x28, 0, 1, 8, true),
    (0x2C, 0, 0, 16, true),
    (0x04, 0, 0, 0, false),
    (0x44, 0, 0, 0, false),
    (0xFA, 0, 0, 0, false),
    (0xC0, 0, 0, 1, false),
];

const LONGEST: usize = 700;

fn command(right: (u8, u8, u8, u8, bool), place: usize, value: u8) -> Vec<u8> {
    let (instruction, p1, p2, p3, sends) = right;
    let mut command = vec![0xA0, instruction, p1, p2, p3];
    command[place] = value;
    if sends {
        command.resize(5 + usize::from(command[4]), 0x31);
    }
    command
}

/// Runs on the base image of the edges, each with an EF selected at first.
pub fn runs() -> Vec<Vec<Vec<u8>>> {
    let mut all = Vec::new();
    for right in RIGHT {
        for place in [0, 2, 3, 4] {
            // A wrong class is the same for all values but A0.
            let step = if place == 0 { 37 } else { 1 };
            all.extend((0..=255).step_by(step).map(|value| command(right, place, value)));
        }
        let sound = command(right, 0, 0xA0);
        all.push([&sound[..], &[0]].concat());
        all.push(sound[..sound.len() - 1].to_vec());
    }
    all.extend((0..=255).map(|instruction| apdu(instruction, 0, 0, &[])));
    let path = [apdu(0xA4, 0, 0, &[0x7F, 0x20]), apdu(0xA4, 0, 0, &[0x6F, 0x02])];
    all.chunks(LONGEST).map(|part| [&path, part].concat()).collect()
}
