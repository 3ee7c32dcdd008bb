pub struct Session {
    pub directory: usize,
    pub file: Option<usize>,
    /// A record number from 1, or undefined.
    pub pointer: Option<usize>,
    /// Presented marks of CHV1 and CHV2.
    pub presented: [bool; 2],
    pub waiting: Vec<u8>,
}

impl Session {
    pub fn reset() -> Session {
        Session {
            directory: 0,
            file: None,
            pointer: None,
            presented: [false, false],
            waiting: Vec::new(),
        }
    }
}
