//! The card image as owned structures.

use std::collections::VecDeque;

pub struct Image {
    pub codes: Vec<Code>,
    pub directories: Vec<Directory>,
    pub files: Vec<ElementaryFile>,
}

pub struct Code {
    pub initialised: bool,
    pub unblock_initialised: bool,
    pub disabled: bool,
    pub attempts: u8,
    pub unblock_attempts: u8,
    pub chv: [u8; 8],
    pub unblock: [u8; 8],
}

pub struct Directory {
    pub identifier: u16,
    pub parent: usize,
    pub characteristics: u8,
    pub free_memory: u16,
    pub number_of_codes: u8,
}

pub struct ElementaryFile {
    pub identifier: u16,
    pub directory: usize,
    pub increase: u8,
    pub access: [u8; 3],
    /// Status b1: not invalidated.
    pub valid: bool,
    /// Status b3: READ and UPDATE act also while invalidated.
    pub readable_when_invalidated: bool,
    pub body: Body,
}

pub enum Body {
    Transparent(Vec<u8>),
    Linear(VecDeque<Vec<u8>>),
    /// Records in the order of their numbers; `top` is the stored place of
    /// record 1 and matters only when the image is read and written.
    Cyclic { records: VecDeque<Vec<u8>>, top: usize },
}

impl Body {
    pub fn structure(&self) -> u8 {
        match self {
            Body::Transparent(_) => 0,
            Body::Linear(_) => 1,
            Body::Cyclic { .. } => 3,
        }
    }

    pub fn records(&self) -> Option<&VecDeque<Vec<u8>>> {
        match self {
            Body::Transparent(_) => None,
            Body::Linear(records) | Body::Cyclic { records, .. } => Some(records),
        }
    }

    /// 0 for a transparent file. The shelf form promises a first record.
    pub fn record_length(&self) -> usize {
        self.records().map_or(0, |records| records[0].len())
    }

    pub fn size(&self) -> usize {
        match self {
            Body::Transparent(bytes) => bytes.len(),
            Body::Linear(records) | Body::Cyclic { records, .. } => {
                records.iter().map(Vec::len).sum()
            }
        }
    }
}

impl ElementaryFile {
    pub fn status(&self) -> u8 {
        u8::from(self.valid) + 4 * u8::from(self.readable_when_invalidated)
    }
}
