const MODES: [u8; 6] = [0x00, 0x80, 0x01, 0x81, 0x02, 0x04];
const ABSENT: u8 = 0;

fn fits(mode: u8, mnc_length: u8, file: &[u8]) -> bool {
    let lengths: &[u8] = if file.len() == 3 { &[ABSENT] } else { &[2, 3] };
    MODES.contains(&mode) && lengths.contains(&mnc_length)
}

pub fn decode(file: &[u8]) -> Option<Vec<u8>> {
    let mnc_length = file.get(3).map_or(ABSENT, |byte| byte & 0x0F);
    fits(file[0], mnc_length, file).then(|| vec![file[0], mnc_length])
}

pub fn encode(file: &[u8], value: &[u8]) -> Option<Vec<u8>> {
    let [mode, mnc_length] = *value else {
        return None;
    };
    if !fits(mode, mnc_length, file) {
        return None;
    }
    let mut file = file.to_vec();
    file[0] = mode;
    if let Some(byte) = file.get_mut(3) {
        *byte = *byte & 0xF0 | mnc_length;
    }
    Some(file)
}
