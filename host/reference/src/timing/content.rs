/// The size of the file in bytes.
pub const SIZE: usize = 64;

/// How many values the file holds.
pub const VALUES: usize = 28;

/// What the file holds, or is to hold.
#[derive(Clone, Copy, Debug, Default, PartialEq, Eq)]
pub struct Timing {
    /// The board number.
    pub board: u32,
    /// The number of the memory maker.
    pub maker: u32,
    /// The values.
    pub values: [u16; VALUES],
}

impl Timing {
    /// The bytes of the file: both numbers, then the values, all big-endian.
    pub fn bytes(&self) -> [u8; SIZE] {
        let mut bytes = [0; SIZE];
        bytes[..4].copy_from_slice(&self.board.to_be_bytes());
        bytes[4..8].copy_from_slice(&self.maker.to_be_bytes());
        for (room, value) in bytes[8..].chunks_mut(2).zip(self.values) {
            room.copy_from_slice(&value.to_be_bytes());
        }
        bytes
    }

    /// What these bytes of a file say.
    pub fn of(bytes: &[u8; SIZE]) -> Self {
        let number = |at: usize| {
            let number = bytes[at..].first_chunk().expect("four bytes");
            u32::from_be_bytes(*number)
        };
        let value = |index: usize| u16::from_be_bytes([bytes[8 + 2 * index], bytes[9 + 2 * index]]);
        Self {
            board: number(0),
            maker: number(4),
            values: std::array::from_fn(value),
        }
    }
}
