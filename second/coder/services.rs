//! The service table as a list of bit pairs (allocated, activated).

const NOT_ALLOCATED: u8 = 0;
const ALLOCATED: u8 = 1;
const ACTIVATED: u8 = 2;

type Pair = (bool, bool);

fn pairs(file: &[u8]) -> Vec<Pair> {
    let bits: Vec<bool> =
        file.iter().flat_map(|byte| (0..8).map(move |bit| byte >> bit & 1 == 1)).collect();
    bits.chunks(2).map(|pair| (pair[0], pair[1])).collect()
}

fn bytes(pairs: &[Pair]) -> Vec<u8> {
    let byte = |four: &[Pair]| {
        four.iter().rev().fold(0, |byte, (allocated, activated)| {
            byte << 2 | u8::from(*activated) << 1 | u8::from(*allocated)
        })
    };
    pairs.chunks(4).map(byte).collect()
}

/// The place of the service in the list; service 0 has none.
fn place(number: &[u8]) -> Option<usize> {
    let number: [u8; 4] = number.try_into().ok()?;
    (u32::from_be_bytes(number) as usize).checked_sub(1)
}

pub fn decode(file: &[u8], value: &[u8]) -> Option<Vec<u8>> {
    let place = place(value)?;
    let state = match pairs(file).get(place) {
        Some((true, true)) => ACTIVATED,
        Some((true, false)) => ALLOCATED,
        _ => NOT_ALLOCATED,
    };
    Some(vec![state])
}

pub fn encode(file: &[u8], value: &[u8]) -> Option<Vec<u8>> {
    let (state, number) = value.split_last()?;
    let place = place(number)?;
    let mut pairs = pairs(file);
    let pair = pairs.get_mut(place)?;
    *pair = match *state {
        NOT_ALLOCATED => (false, pair.1),
        ALLOCATED => (true, false),
        ACTIVATED => (true, true),
        _ => return None,
    };
    Some(bytes(&pairs))
}
