use generate::Random;
use reference::timing::VALUES;

const MARGIN: usize = 64;

/// Bytes lent to a request, with noise around them that no request may change.
#[derive(Clone, Debug, PartialEq, Eq)]
pub struct Lent {
    around: Vec<u8>,
    start: usize,
    end: usize,
}

impl Lent {
    /// Puts bytes between noise, at any alignment.
    pub fn new(random: &mut Random, bytes: &[u8]) -> Self {
        let start = random.below(MARGIN);
        let end = start + bytes.len();
        let mut around = vec![0; end + MARGIN];
        around[start..end].copy_from_slice(bytes);
        random.fill(&mut around[..start]);
        random.fill(&mut around[end..]);
        Self { around, start, end }
    }

    /// Gives the bytes.
    pub fn bytes(&self) -> &[u8] {
        &self.around[self.start..self.end]
    }

    /// Gives the bytes to be changed.
    pub fn bytes_mut(&mut self) -> &mut [u8] {
        &mut self.around[self.start..self.end]
    }

    /// Gives the first byte that differs from another copy, counted from the start of the bytes.
    pub fn differs_at(&self, other: &Self) -> Option<isize> {
        if self == other {
            return None;
        }
        let pairs = self.around.iter().zip(&other.around);
        let equal = pairs.take_while(|(one, two)| one == two).count();
        Some(equal as isize - self.start as isize)
    }
}

/// Values lent to a store, with noise around them that no request may change.
#[derive(Clone, Debug, PartialEq, Eq)]
pub struct LentValues([[u16; VALUES]; 3]);

impl LentValues {
    /// Puts values between noise.
    pub fn new(random: &mut Random, values: &[u16; VALUES]) -> Self {
        let mut noise = || std::array::from_fn(|_| random.word() as u16);
        Self([noise(), *values, noise()])
    }

    /// Gives the values.
    pub fn values(&self) -> &[u16; VALUES] {
        &self.0[1]
    }

    /// Gives the first value that differs from another copy, counted from the start of the values.
    pub fn differs_at(&self, other: &Self) -> Option<isize> {
        let (ours, theirs) = (self.0.as_flattened(), other.0.as_flattened());
        let first = ours.iter().zip(theirs).position(|(one, two)| one != two)?;
        Some(first as isize - VALUES as isize)
    }
}

/// What a request is lent.
#[derive(Clone, Debug)]
pub struct Lents {
    /// The image.
    pub image: Lent,
    /// The name.
    pub name: Lent,
    /// The buffer.
    pub buffer: Lent,
    /// The bytes to be written whose store is asked for.
    pub bytes: Lent,
    /// The values of a store.
    pub values: LentValues,
}
