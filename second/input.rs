use std::fs::File;
use std::io::Read;
use std::os::fd::AsFd;

pub struct Input {
    source: Box<dyn Read>,
}

/// The input ended before what was asked for was there.
pub struct Short;

impl Input {
    /// Standard input without reading ahead: the library's own reader would
    /// take more than was asked for, so the descriptor is read directly.
    pub fn step_by_step() -> Input {
        match std::io::stdin().as_fd().try_clone_to_owned() {
            Ok(descriptor) => Input { source: Box::new(File::from(descriptor)) },
            Err(_) => Input { source: Box::new(std::io::empty()) },
        }
    }

    pub fn ahead() -> Input {
        Input { source: Box::new(std::io::stdin().lock()) }
    }

    pub fn bytes(&mut self, count: usize) -> Result<Vec<u8>, Short> {
        let mut bytes = vec![0; count];
        self.source.read_exact(&mut bytes).map_err(|_| Short)?;
        Ok(bytes)
    }

    /// A number of two bytes, high byte first.
    pub fn number(&mut self) -> Result<usize, Short> {
        let bytes = self.bytes(2)?;
        Ok(usize::from(bytes[0]) * 256 + usize::from(bytes[1]))
    }

    /// A count of two bytes and so many bytes.
    pub fn counted(&mut self) -> Result<Vec<u8>, Short> {
        let count = self.number()?;
        self.bytes(count)
    }
}
