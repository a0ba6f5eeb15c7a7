use reference::timing::VALUES;

/// An answer as the C interface gives it: all its words, the name of a listed file and the values of
/// a boot.
#[derive(Clone, Copy, Debug, Default, PartialEq, Eq)]
pub struct Answer {
    /// The number of the refusal, the place, and what is granted.
    pub words: [u64; 13],
    /// The name padded with zeros.
    pub name: [u8; 16],
    /// The values.
    pub values: [u16; VALUES],
}

impl Answer {
    /// Gives an answer of some words; those that are missing are 0.
    pub fn of(words: &[u64]) -> Self {
        let mut answer = Self::default();
        answer.words[..words.len()].copy_from_slice(words);
        answer
    }

    /// Adds a name of at most 16 bytes.
    pub fn named(mut self, name: &[u8]) -> Self {
        self.name[..name.len()].copy_from_slice(name);
        self
    }

    /// Adds values.
    pub fn valued(mut self, values: [u16; VALUES]) -> Self {
        self.values = values;
        self
    }

    /// Gives the number of the refusal, or 0.
    pub fn refusal(&self) -> u32 {
        self.words[0] as u32
    }

    /// Gives the first word behind refusal and place.
    pub fn value(&self) -> u32 {
        self.words[2] as u32
    }

    /// Gives the word behind that, which for a read or a write is the number of blocks.
    pub fn blocks(&self) -> u32 {
        self.words[3] as u32
    }
}
