//! SPN: the display condition and the service provider name.

pub fn decode(file: &[u8]) -> Option<Vec<u8>> {
    let (condition, field) = file.split_first()?;
    let mut parts = field.splitn(2, |byte| *byte == 0xFF);
    let name = parts.next()?;
    let filled = parts.next().is_none_or(|rest| rest.iter().all(|byte| *byte == 0xFF));
    (*condition <= 3 && filled).then(|| [&[*condition], name].concat())
}

pub fn encode(value: &[u8]) -> Option<Vec<u8>> {
    let (condition, name) = value.split_first()?;
    if *condition > 3 || name.len() > 16 || name.contains(&0xFF) {
        return None;
    }
    let mut file = value.to_vec();
    file.resize(17, 0xFF);
    Some(file)
}
