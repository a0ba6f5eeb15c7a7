//! All faults of a volume, each with its cause in words.

use super::{blocks_for, Block, Claim, Inode, State, Survey, FIXED, LARGEST_FILE, MAGIC};
use crate::words;

/// A broken rule: its number, the slot or block at fault or 0, and the cause.
#[derive(Clone, Debug, PartialEq, Eq)]
pub struct Fault {
    pub number: u32,
    pub place: u32,
    pub cause: String,
}

impl Survey {
    /// Every broken rule at every place, in the order of the check; where a slot or an inode is
    /// wrong in several ways, one fault says so.
    ///
    /// A rule is applied wherever its bytes can be read: the inode of a slot and the blocks that it
    /// claims count although the slot's name is bad or the magic number wrong, but an inode number
    /// out of range leads to no inode, and a size that is too large to no content. So the blocks
    /// that such a slot has lost are listed as marked and of no file.
    pub fn faults(&self) -> Vec<Fault> {
        if self.blocks.is_empty() {
            let bytes = words::count(self.length, "byte");
            let cause = format!("the image has {bytes}, under 1536");
            return placed(1, [Some(cause)]);
        }
        let (slots, blocks) = (0..self.slots.len(), 0..self.blocks.len());
        [
            placed(2, [self.magic_cause()]),
            placed(3, [self.label_cause()]),
            placed(4, slots.clone().map(|slot| self.slot_cause(slot))),
            placed(5, slots.map(|slot| self.inode_cause(slot))),
            placed(6, blocks.clone().map(|block| self.claim_cause(block))),
            placed(7, blocks.map(|block| self.map_cause(block))),
        ]
        .concat()
    }

    fn magic_cause(&self) -> Option<String> {
        let magic = self.magic;
        (magic != MAGIC).then(|| format!("the magic number is {magic}, not {MAGIC}"))
    }

    fn label_cause(&self) -> Option<String> {
        let cause = "the volume name has no end (no zero in its 16 bytes)";
        self.label.is_none().then(|| cause.to_string())
    }

    fn slot_cause(&self, slot: usize) -> Option<String> {
        let wrong = match self.slots[slot].state() {
            State::Free => None,
            _ => joined(self.number_cause(slot), self.name_cause(slot)),
        };
        wrong.map(|wrong| format!("slot {slot} has {wrong}"))
    }

    fn number_cause(&self, slot: usize) -> Option<String> {
        let number = self.slots[slot].number;
        match number {
            0 if self.name_cause(slot).is_none() => Some("a name and no inode".to_string()),
            0 => Some("no inode".to_string()),
            _ => (!self.may_be_claimed(number))
                .then(|| format!("inode number {number}, {}", self.why_not(number))),
        }
    }

    fn name_cause(&self, slot: usize) -> Option<String> {
        let slot = &self.slots[slot];
        match (&slot.name, slot.shown(), slot.repeats) {
            (None, ..) => Some("a name without an end (no zero in its 16 bytes)".to_string()),
            (_, None, _) => Some("no name".to_string()),
            (_, Some(name), Some(lower)) => Some(format!("the name of slot {lower} again: {name}")),
            _ => None,
        }
    }

    /// Why no file may have the block of a number.
    fn why_not(&self, number: u32) -> String {
        match FIXED.get(number as usize) {
            Some(fixed) => format!("the block of the volume's {fixed}"),
            None => format!("outside of the volume's {} blocks", self.blocks.len()),
        }
    }

    fn inode_cause(&self, slot: usize) -> Option<String> {
        let inode = self.slots[slot].inode.as_ref()?;
        let wrong = if inode.size > LARGEST_FILE {
            format!("size {}, over {LARGEST_FILE}", inode.size)
        } else {
            self.numbers_cause(inode)?
        };
        Some(format!("{} has {wrong}", self.named(slot)))
    }

    /// The first wrong number of an inode, and how many others are wrong.
    fn numbers_cause(&self, inode: &Inode) -> Option<String> {
        let count = blocks_for(inode.size);
        let is_wrong = |(index, number): &(usize, &u32)| match *index < count {
            true => !self.may_be_claimed(**number),
            false => **number != 0,
        };
        let mut wrong = inode.numbers.iter().enumerate().filter(is_wrong);
        let (index, &number) = wrong.next()?;
        let first = match (index < count, number) {
            (true, 0) => format!("no block for content {index}"),
            (true, _) => format!(
                "content {index} in block {number}, {}",
                self.why_not(number)
            ),
            _ => {
                let content = words::count(count, "content block");
                format!("block number {index}, behind its {content}, not 0 but {number}")
            }
        };
        Some(match wrong.count() {
            0 => first,
            more => {
                let more = words::count(more, "more wrong block number");
                format!("{first}, and {more}")
            }
        })
    }

    fn claim_cause(&self, block: usize) -> Option<String> {
        let claims = &self.blocks[block].claims;
        let times = match claims.len() {
            0 | 1 => return None,
            2 => "twice".to_string(),
            count => format!("{count} times"),
        };
        let by_slot = claims.chunk_by(|one, other| one.slot == other.slot);
        let claimants: Vec<String> = by_slot.map(|claims| self.claimant(claims)).collect();
        let claimants = claimants.join(", ");
        Some(format!("block {block} is claimed {times}: {claimants}"))
    }

    /// A slot with its claims of one block, of which two are told.
    fn claimant(&self, claims: &[Claim]) -> String {
        let told = claims.iter().take(2).map(|claim| claim.part.words());
        let told = told.collect::<Vec<_>>().join(" and ");
        let more = match claims.len() {
            0..=2 => String::new(),
            count => format!(" and {} more", words::count(count - 2, "time")),
        };
        format!("by {} as {told}{more}", self.named(claims[0].slot))
    }

    fn map_cause(&self, block: usize) -> Option<String> {
        let Block { claims, marked } = &self.blocks[block];
        let owner = match (FIXED.get(block), claims.first()) {
            (Some(fixed), _) => Some(format!("holds the volume's {fixed}")),
            (None, Some(claim)) => Some(format!("belongs to {}", self.owner(claim.slot))),
            (None, None) => None,
        };
        match (owner, marked) {
            (None, true) => Some(format!("block {block} is marked used and no file has it")),
            (Some(owner), false) => Some(format!("block {block} {owner} and is marked free")),
            _ => None,
        }
    }

    /// The name of a file, or its slot where it has none.
    fn owner(&self, slot: usize) -> String {
        let name = self.slots[slot].shown();
        name.unwrap_or_else(|| format!("slot {slot}"))
    }
}

/// The faults of a rule, by the causes at its places.
fn placed(number: u32, causes: impl IntoIterator<Item = Option<String>>) -> Vec<Fault> {
    let fault = |(place, cause): (u32, Option<String>)| {
        cause.map(|cause| Fault {
            number,
            place,
            cause,
        })
    };
    (0..).zip(causes).filter_map(fault).collect()
}

/// One cause or both.
fn joined(one: Option<String>, other: Option<String>) -> Option<String> {
    match (one, other) {
        (Some(one), Some(other)) => Some(format!("{one}, and {other}")),
        (one, other) => one.or(other),
    }
}
