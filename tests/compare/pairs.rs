//! Which status words each instruction gave, and which it must have given.

use std::collections::BTreeMap;

/// From paper 01: per instruction every status word it can give. `67L` is 67
/// with the record length, `67w` with the waiting length; `host4` a command
/// that is cut. Each can also be 6E00 by its class.
const CAN_GIVE: [(&str, &str); 19] = [
    ("A4", "6B00 6702 host4 9404 9F16 9F0F"),
    ("F2", "6B00 6716 host4 9000"),
    ("B0", "host4 9400 9408 9810 9804 9402 9000"),
    ("D6", "6700 host4 9400 9408 9810 9804 9402 9000"),
    ("B2", "6B00 host4 9400 9408 9810 9804 67L 9402 9000"),
    ("DC", "6B00 6700 host4 9400 9408 9810 9804 67L 9402 9000"),
    ("A2", "6B00 6700 host4 9400 9408 9810 9804 67L 9404 9000 9F01"),
    ("32", "6B00 6703 host4 9400 9408 9810 9804 9850 9F06"),
    ("20", "6B00 6708 host4 9802 9840 9808 9804 9000"),
    ("24", "6B00 6710 host4 9802 9840 9808 9804 9000"),
    ("26", "6B00 6708 host4 9802 9840 9808 9804 9000"),
    ("28", "6B00 6708 host4 9802 9840 9808 9804 9000"),
    ("2C", "6B00 6710 host4 9802 9840 9804 9000"),
    ("04", "6B00 6700 host4 9400 9810 9804 9000"),
    ("44", "6B00 6700 host4 9400 9810 9804 9000"),
    ("FA", "6B00 6700 host4 9000"),
    ("C0", "6B00 host4 6F00 67w 9000"),
    ("other", "6D00"),
    ("under 5 bytes", "host4"),
];

#[derive(Default)]
pub struct Pairs {
    counts: BTreeMap<(String, String), usize>,
}

fn known(instruction: &str) -> bool {
    CAN_GIVE.iter().any(|(name, _)| *name == instruction)
}

fn allowed(instruction: &str) -> Vec<&'static str> {
    let row = CAN_GIVE.iter().find(|(name, _)| *name == instruction);
    let mut words: Vec<&str> = row.map_or("", |(_, words)| words).split(' ').collect();
    if instruction != "under 5 bytes" {
        words.push("6E00");
    }
    words
}

impl Pairs {
    /// Takes in one command and its line.
    pub fn add(&mut self, command: &[u8], line: &str) {
        let mut instruction = "under 5 bytes".to_string();
        if command.len() >= 5 {
            instruction = format!("{:02X}", command[1]);
            if !known(&instruction) {
                instruction = "other".to_string();
            }
        }
        let mut parts = line.split(' ').skip(1);
        let (host, response) = (parts.next().unwrap_or(""), parts.next().unwrap_or(""));
        let word = match host {
            "0" => class(&instruction, &response[response.len().saturating_sub(4)..]),
            "1" => return,
            _ => format!("host{host}"),
        };
        *self.counts.entry((instruction, word)).or_default() += 1;
    }

    pub fn join(&mut self, other: Pairs) {
        for (pair, count) in other.counts {
            *self.counts.entry(pair).or_default() += count;
        }
    }

    /// Pairs never given, and pairs given that no command can give.
    pub fn complaints(&self) -> Vec<String> {
        let mut list = Vec::new();
        for (instruction, _) in CAN_GIVE {
            for word in allowed(instruction) {
                let pair = (instruction.to_string(), word.to_string());
                if !self.counts.contains_key(&pair) {
                    list.push(format!("missing pair: {instruction} never gave {word}"));
                }
            }
        }
        for (instruction, word) in self.counts.keys() {
            if !allowed(instruction).contains(&word.as_str()) {
                list.push(format!("strange pair: {instruction} gave {word}"));
            }
        }
        list
    }

    pub fn print(&self) {
        for ((instruction, word), count) in &self.counts {
            println!("pair {instruction} {word} {count}");
        }
    }

    pub fn distinct(&self) -> usize {
        self.counts.len()
    }
}

fn class(instruction: &str, word: &str) -> String {
    let told = match instruction {
        "B2" | "DC" | "A2" if word.starts_with("67") && word != "6700" => "67L",
        "C0" if ["6701", "6706", "670F", "6716"].contains(&word) => "67w",
        _ => word,
    };
    told.to_string()
}
