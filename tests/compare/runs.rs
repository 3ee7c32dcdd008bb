//! Runs that mean something: a scout walks the card and guesses where the
//! session stands; a wrong guess only makes a command less apt.

use crate::prng::Prng;
use crate::shelf::{File, Shelf, CYCLIC, LINEAR, TRANSPARENT};
use crate::spoil;

pub struct Scout<'a> {
    pub shelf: &'a Shelf,
    pub prng: &'a mut Prng,
    directory: usize,
    file: Option<usize>,
    /// CHV and unblock code of CHV1 and CHV2, as far as known.
    chv: [[u8; 8]; 2],
    unblock: [[u8; 8]; 2],
    /// Bytes that may wait for GET RESPONSE.
    waiting: u8,
    last: Vec<u8>,
}

pub fn apdu(instruction: u8, p1: u8, p2: u8, data: &[u8]) -> Vec<u8> {
    [&[0xA0, instruction, p1, p2, data.len() as u8], data].concat()
}

fn asking(instruction: u8, p1: u8, p2: u8, p3: u8) -> Vec<u8> {
    vec![0xA0, instruction, p1, p2, p3]
}

impl<'a> Scout<'a> {
    pub fn new(shelf: &'a Shelf, prng: &'a mut Prng) -> Scout<'a> {
        let part = |number: usize, place: usize| -> [u8; 8] {
            std::array::from_fn(|k| shelf.codes[number][place + k])
        };
        Scout {
            chv: [part(0, 4), part(1, 4)],
            unblock: [part(0, 12), part(1, 12)],
            shelf,
            prng,
            directory: 0,
            file: None,
            waiting: 0,
            last: Vec::new(),
        }
    }

    pub fn run(&mut self, count: usize) -> Vec<Vec<u8>> {
        let mut commands = Vec::new();
        for number in [1, 2] {
            if self.prng.percent(60) {
                commands.push(apdu(0x20, 0, number, &self.chv[usize::from(number) - 1]));
            }
        }
        while commands.len() < count {
            commands.push(self.next());
        }
        commands.truncate(count);
        commands
    }

    fn next(&mut self) -> Vec<u8> {
        if self.prng.percent(12) {
            let state = (self.directory, self.file);
            let mut command = self.sound();
            (self.directory, self.file) = state;
            // Two faults at once try the order of refusals.
            for _ in 0..self.prng.pick(&[1, 1, 2]) {
                command = spoil::command(self.prng, command);
            }
            return command;
        }
        if self.last.len() > 5 && self.prng.percent(8) {
            return self.last.clone();
        }
        self.last = self.sound();
        self.last.clone()
    }

    fn sound(&mut self) -> Vec<u8> {
        if self.waiting > 0 && self.prng.percent(25) {
            return self.get_response();
        }
        if self.file.is_none() && self.prng.percent(50) {
            return self.select_file();
        }
        match self.prng.below(100) {
            0..=2 => self.select_directory(),
            3..=13 => self.select_file(),
            14..=16 => self.select_astray(),
            17..=32 => self.code(),
            33..=35 => asking(0xF2, 0, 0, self.prng.between(1, 22) as u8),
            36 => asking(0xFA, 0, 0, 0),
            37..=39 => self.get_response(),
            40..=45 => asking(self.prng.pick(&[0x04, 0x44]), 0, 0, 0),
            _ => self.on_file(),
        }
    }

    fn get_response(&mut self) -> Vec<u8> {
        let count = self.waiting;
        self.waiting = 0;
        let any = self.prng.byte();
        let less = self.prng.between(1, usize::from(count.max(1))) as u8;
        let list = [(60, count), (15, less), (8, 0), (9, count.wrapping_add(1)), (8, any)];
        let wanted = self.prng.weighted(&list);
        if wanted == 0 || wanted > count {
            self.waiting = count;
        }
        asking(0xC0, 0, 0, wanted)
    }

    fn select(&mut self, identifier: u16) -> Vec<u8> {
        apdu(0xA4, 0, 0, &identifier.to_be_bytes())
    }

    fn select_directory(&mut self) -> Vec<u8> {
        let (from, above) = (self.directory, self.shelf.parent(self.directory));
        let reached: Vec<usize> = (0..self.shelf.directories.len())
            .filter(|&number| {
                let parent = self.shelf.parent(number);
                [0, from, above].contains(&number) || parent == from || parent == above
            })
            .collect();
        self.directory = self.prng.pick(&reached);
        self.file = None;
        self.waiting = 22;
        self.select(self.shelf.identifier(self.directory))
    }

    fn select_file(&mut self) -> Vec<u8> {
        let here: Vec<usize> = (0..self.shelf.files.len())
            .filter(|&number| self.shelf.files[number].directory() == self.directory)
            .collect();
        if here.is_empty() {
            return self.select_directory();
        }
        let number = self.prng.pick(&here);
        self.file = Some(number);
        self.waiting = 15;
        self.select(self.shelf.files[number].identifier())
    }

    /// An identifier from anywhere on the card, or from nowhere.
    fn select_astray(&mut self) -> Vec<u8> {
        self.waiting = 0;
        let anywhere = self.prng.below(self.shelf.directories.len());
        let identifier = match self.prng.below(3) {
            0 => self.shelf.identifier(anywhere),
            1 if !self.shelf.files.is_empty() => {
                let number = self.prng.below(self.shelf.files.len());
                self.shelf.files[number].identifier()
            }
            _ => self.prng.next() as u16,
        };
        self.select(identifier)
    }

    fn code(&mut self) -> Vec<u8> {
        self.waiting = 0;
        let number = self.prng.below(2);
        let new = if self.prng.percent(60) {
            self.chv[number]
        } else {
            *self.prng.pick(&[b"1234\xFF\xFF\xFF\xFF", b"87654321"])
        };
        let mut old = self.chv[number];
        let mut key = self.unblock[number];
        let right = self.prng.percent(65);
        if !right {
            let place = self.prng.below(8);
            old[place] ^= 1 << self.prng.below(8);
            key[place] ^= 1 << self.prng.below(8);
        }
        match self.prng.below(10) {
            0..=4 => apdu(0x20, 0, number as u8 + 1, &old),
            5 => {
                if right {
                    self.chv[number] = new;
                }
                apdu(0x24, 0, number as u8 + 1, &[old, new].concat())
            }
            6 | 7 => {
                let old = if right { self.chv[0] } else { old };
                apdu(self.prng.pick(&[0x26, 0x28, 0x28]), 0, 1, &old)
            }
            _ => {
                if right {
                    self.chv[number] = new;
                }
                apdu(0x2C, 0, 2 * number as u8, &[key, new].concat())
            }
        }
    }

    fn on_file(&mut self) -> Vec<u8> {
        self.waiting = 0;
        let shelf = self.shelf;
        let fallback = File::new(0x6F00, 0, self.prng.pick(&[TRANSPARENT, LINEAR, CYCLIC]), 3, 6);
        let file = self.file.map_or(&fallback, |number| &shelf.files[number]);
        let structure = if self.prng.percent(10) {
            self.prng.pick(&[TRANSPARENT, LINEAR, CYCLIC])
        } else {
            file.structure()
        };
        match structure {
            TRANSPARENT => self.binary(file),
            LINEAR if self.prng.percent(45) => self.seek(file),
            CYCLIC if self.prng.percent(45) => self.increase(),
            _ => self.record(file),
        }
    }

    fn binary(&mut self, file: &File) -> Vec<u8> {
        let size = file.bytes.len();
        let start = self.prng.below(size + 1);
        let left = size - start;
        let most = left.min(255);
        let count = match self.prng.below(10) {
            0..=5 => self.prng.between(most.min(1), most),
            6 => most + 1,
            7 => 0,
            _ => self.prng.below(256),
        };
        let far = if self.prng.percent(8) { 0x80 } else { 0 };
        let (p1, p2) = ((start >> 8) as u8 | far, start as u8);
        if self.prng.percent(50) {
            return asking(0xB0, p1, p2, count as u8);
        }
        let data = self.prng.bytes(count % 256);
        apdu(0xD6, p1, p2, &data)
    }

    fn record(&mut self, file: &File) -> Vec<u8> {
        let records = file.records();
        let mode = self.prng.weighted(&[(32, 2), (36, 3), (32, 4)]);
        let any = self.prng.byte();
        let within = self.prng.between(1, records.clamp(1, 255)) as u8;
        let past = (records + 1) as u8;
        let p1 = self.prng.weighted(&[(50, within), (20, 0), (15, past), (15, any)]);
        let wrong = self.prng.below(256);
        let length = self.prng.weighted(&[(88, file.length()), (6, wrong), (6, file.length() + 1)]);
        if self.prng.percent(55) {
            return asking(0xB2, p1, mode, length as u8);
        }
        let data = self.prng.bytes(length % 256);
        apdu(0xDC, p1, mode, &data)
    }

    fn seek(&mut self, file: &File) -> Vec<u8> {
        let mode = self.prng.pick(&[0, 1, 2, 3, 2, 3]) + self.prng.pick(&[0x00, 0x10]);
        if mode >= 0x10 {
            self.waiting = 1;
        }
        let length = file.length().max(1);
        let most = length.min(16);
        let count = self.prng.between(1, most);
        let start = self.prng.below(file.records().max(1)) * length;
        let pattern = match self.prng.below(10) {
            0 => self.prng.bytes(count),
            1 => self.prng.bytes(16.min(length + 1)),
            _ => file.bytes.iter().skip(start).take(count).copied().collect(),
        };
        apdu(0xA2, 0, mode, &pattern)
    }

    fn increase(&mut self) -> Vec<u8> {
        self.waiting = 6;
        let any = [self.prng.byte(), self.prng.byte(), self.prng.byte()];
        let added = self.prng.weighted(&[(40, [0, 0, 1]), (15, [0, 0, 0]), (45, any)]);
        apdu(0x32, 0, 0, &added)
    }
}
