//! How many blocks and slots a volume has, and has in use.

use super::{Block, Part, State, Survey, FIXED};

/// Of what is there, the used and the free; the others are faulty.
pub struct Tally {
    pub all: usize,
    pub used: usize,
    pub free: usize,
}

impl Survey {
    /// The blocks: used where the volume itself or a file has them, free where the map says so, too.
    pub fn block_tally(&self) -> Tally {
        let kinds = (0..self.blocks.len()).map(|number| self.kind(number));
        let count = |wanted: &str| kinds.clone().filter(|kind| *kind == wanted).count();
        let (all, free, stray) = (self.blocks.len(), count("free"), count("stray"));
        Tally {
            all,
            used: all - free - stray,
            free,
        }
    }

    /// The slots.
    pub fn slot_tally(&self) -> Tally {
        let count = |wanted: State| {
            let slots = self.slots.iter();
            slots.filter(|slot| slot.state() == wanted).count()
        };
        Tally {
            all: self.slots.len(),
            used: count(State::Used),
            free: count(State::Free),
        }
    }

    /// What a block is, by the first that claims it.
    pub fn kind(&self, number: usize) -> &'static str {
        let Block { claims, marked } = &self.blocks[number];
        match (FIXED.get(number), claims.first(), marked) {
            (Some(fixed), ..) => fixed,
            (_, Some(claim), _) => match claim.part {
                Part::Inode => "inode",
                Part::Content(_) => "content",
            },
            (_, None, true) => "stray",
            (_, None, false) => "free",
        }
    }

    /// The slots that are not free.
    pub fn taken(&self) -> impl Iterator<Item = usize> + '_ {
        let slots = self.slots.iter().enumerate();
        let taken = slots.filter(|(_, slot)| slot.state() != State::Free);
        taken.map(|(number, _)| number)
    }

    /// The number of blocks that a slot claims.
    pub fn blocks_of(&self, slot: usize) -> usize {
        self.claims(slot).count()
    }
}
