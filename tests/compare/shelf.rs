//! A card image by raw entries, so that single bytes can be set right or wrong.

#[derive(Clone, Default)]
pub struct Shelf {
    pub codes: Vec<[u8; 20]>,
    pub directories: Vec<[u8; 8]>,
    pub files: Vec<File>,
}

#[derive(Clone)]
pub struct File {
    pub entry: [u8; 14],
    pub bytes: Vec<u8>,
}

pub const TRANSPARENT: u8 = 0;
pub const LINEAR: u8 = 1;
pub const CYCLIC: u8 = 3;

impl File {
    /// Status 01, every access level 0, no bytes set.
    pub fn new(identifier: u16, directory: u8, structure: u8, length: u8, size: usize) -> File {
        let mut entry = [0; 14];
        entry[..2].copy_from_slice(&identifier.to_be_bytes());
        entry[2] = directory;
        entry[3] = structure;
        entry[4] = length;
        entry[9] = 1;
        let mut file = File { entry, bytes: Vec::new() };
        file.resize(size);
        file
    }

    pub fn resize(&mut self, size: usize) {
        self.bytes.resize(size, 0);
        self.entry[10..12].copy_from_slice(&(size as u16).to_be_bytes());
    }

    pub fn identifier(&self) -> u16 {
        u16::from_be_bytes([self.entry[0], self.entry[1]])
    }

    pub fn directory(&self) -> usize {
        usize::from(self.entry[2])
    }

    pub fn structure(&self) -> u8 {
        self.entry[3]
    }

    pub fn length(&self) -> usize {
        usize::from(self.entry[4])
    }

    pub fn records(&self) -> usize {
        self.bytes.len() / self.length().max(1)
    }
}

pub fn directory(identifier: u16, parent: u8) -> [u8; 8] {
    let [high, low] = identifier.to_be_bytes();
    [high, low, parent, 0x13, 0, 0, 4, 0]
}

pub fn code(chv: &[u8; 8], unblock: &[u8; 8]) -> [u8; 20] {
    let mut entry = [0; 20];
    entry[..4].copy_from_slice(&[0xC0, 3, 10, 0]);
    entry[4..12].copy_from_slice(chv);
    entry[12..].copy_from_slice(unblock);
    entry
}

impl Shelf {
    /// A master file and two codes, everything initialised.
    pub fn bare() -> Shelf {
        let chv1 = code(b"1234\xFF\xFF\xFF\xFF", b"11111111");
        let chv2 = code(b"5678\xFF\xFF\xFF\xFF", b"22222222");
        Shelf {
            codes: vec![chv1, chv2],
            directories: vec![directory(0x3F00, 0)],
            files: Vec::new(),
        }
    }

    pub fn identifier(&self, directory: usize) -> u16 {
        u16::from_be_bytes([self.directories[directory][0], self.directories[directory][1]])
    }

    pub fn parent(&self, directory: usize) -> usize {
        usize::from(self.directories[directory][2])
    }

    pub fn to_bytes(&self) -> Vec<u8> {
        let mut bytes = self.without_bytes();
        let contents: Vec<u8> = self.files.iter().flat_map(|file| file.bytes.clone()).collect();
        bytes.extend((contents.len() as u16).to_be_bytes());
        bytes.extend(contents);
        bytes
    }

    /// The first three sections.
    pub fn without_bytes(&self) -> Vec<u8> {
        let mut bytes = Vec::new();
        bytes.extend((self.codes.len() as u16).to_be_bytes());
        bytes.extend(self.codes.concat());
        bytes.extend((self.directories.len() as u16).to_be_bytes());
        bytes.extend(self.directories.concat());
        bytes.extend((self.files.len() as u16).to_be_bytes());
        for file in &self.files {
            bytes.extend(file.entry);
        }
        bytes
    }
}
