//! ICCID, IMSI and PLMN entries, by way of lists of halves, low half first.

const FILL: u8 = 0xF;

fn halves(bytes: &[u8]) -> Vec<u8> {
    bytes.iter().flat_map(|byte| [byte & 0x0F, byte >> 4]).collect()
}

fn bytes(halves: &[u8]) -> Vec<u8> {
    halves.chunks(2).map(|pair| pair[0] + 16 * pair[1]).collect()
}

fn all_digits(list: &[u8]) -> bool {
    list.iter().all(|half| *half <= 9)
}

pub fn decode_iccid(file: &[u8]) -> Option<Vec<u8>> {
    let halves = halves(file);
    let count = halves.iter().take_while(|half| **half <= 9).count();
    let (digits, rest) = halves.split_at(count);
    let sound = count >= 1 && rest.iter().all(|half| *half == FILL);
    sound.then(|| digits.to_vec())
}

pub fn encode_iccid(digits: &[u8]) -> Option<Vec<u8>> {
    if !(1..=20).contains(&digits.len()) || !all_digits(digits) {
        return None;
    }
    let mut halves = digits.to_vec();
    halves.resize(20, FILL);
    Some(bytes(&halves))
}

pub fn decode_imsi(file: &[u8]) -> Option<Vec<u8>> {
    let length = usize::from(file[0]);
    if !(1..=8).contains(&length) || file[1 + length..].iter().any(|byte| *byte != 0xFF) {
        return None;
    }
    let mut digits = halves(&file[1..1 + length]);
    let parity = digits.remove(0);
    match parity {
        9 => {}
        1 if digits.pop() == Some(FILL) => {}
        _ => return None,
    }
    (!digits.is_empty() && all_digits(&digits)).then_some(digits)
}

pub fn encode_imsi(digits: &[u8]) -> Option<Vec<u8>> {
    if !(1..=15).contains(&digits.len()) || !all_digits(digits) {
        return None;
    }
    let odd = digits.len() % 2 == 1;
    let mut halves = vec![if odd { 9 } else { 1 }];
    halves.extend(digits);
    if !odd {
        halves.push(FILL);
    }
    let mut file = vec![(halves.len() / 2) as u8];
    file.extend(bytes(&halves));
    file.resize(9, 0xFF);
    Some(file)
}

/// Halves in order: MCC digits 1, 2, 3, the F, MNC digits 1, 2.
pub fn decode_plmn(file: &[u8]) -> Option<Vec<u8>> {
    if file == [0xFF; 3] {
        return Some(Vec::new());
    }
    let mut digits = halves(file);
    let filler = digits.remove(3);
    (filler == FILL && all_digits(&digits)).then_some(digits)
}

pub fn encode_plmn(digits: &[u8]) -> Option<Vec<u8>> {
    if digits.is_empty() {
        return Some(vec![0xFF; 3]);
    }
    if digits.len() != 5 || !all_digits(digits) {
        return None;
    }
    let mut halves = digits.to_vec();
    halves.insert(3, FILL);
    Some(bytes(&halves))
}
