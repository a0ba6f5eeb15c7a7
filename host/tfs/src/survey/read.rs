//! The parts of a volume out of its bytes.

use super::{Block, Claim, Inode, Slot, Survey, BLOCK_SIZE, FIXED, MOST_BLOCKS, SLOTS};

type Bytes = [u8; BLOCK_SIZE];

/// Reads any bytes as a volume.
pub fn volume(bytes: &[u8]) -> Survey {
    let whole = bytes.as_chunks::<BLOCK_SIZE>().0;
    let whole = &whole[..whole.len().min(MOST_BLOCKS)];
    let mut survey = Survey {
        length: bytes.len(),
        magic: 0,
        label: None,
        slots: Vec::new(),
        blocks: Vec::new(),
    };
    if let [header, map, directory, ..] = whole {
        survey.magic = word(header, 0);
        survey.label = zero_ended(&header[4..20]);
        survey.slots = slots(directory, whole);
        survey.blocks = blocks(map, whole.len());
        claim_all(&mut survey);
    }
    survey
}

fn slots(directory: &Bytes, blocks: &[Bytes]) -> Vec<Slot> {
    let mut slots: Vec<Slot> = Vec::new();
    for raw in directory.as_chunks::<20>().0.iter().take(SLOTS) {
        let (number, name) = (word(raw, 0), zero_ended(&raw[4..]));
        let same = |lower: &Slot| lower.name == name;
        let named = name.as_ref().is_some_and(|name| !name.is_empty());
        slots.push(Slot {
            number,
            repeats: slots.iter().position(same).filter(|_| named),
            name,
            inode: inode(number, blocks),
        });
    }
    slots
}

/// The inode at a block that a file may have.
fn inode(number: u32, blocks: &[Bytes]) -> Option<Inode> {
    let index = number as usize;
    let block = blocks.get(index).filter(|_| index >= FIXED.len())?;
    Some(Inode {
        size: word(block, 0),
        numbers: (1..BLOCK_SIZE / 4)
            .map(|index| word(block, index))
            .collect(),
    })
}

/// Blocks without claims; block b is bit b mod 32, from the least significant, of word b div 32.
fn blocks(map: &Bytes, count: usize) -> Vec<Block> {
    let marked = |block: usize| word(map, block / 32) >> (block % 32) & 1 == 1;
    let block = |block| Block {
        claims: Vec::new(),
        marked: marked(block),
    };
    (0..count).map(block).collect()
}

/// Notes the claims of all slots, in their order.
fn claim_all(survey: &mut Survey) {
    for slot in 0..survey.slots.len() {
        let claims: Vec<_> = survey.claims(slot).collect();
        let claims = claims.into_iter();
        claims.for_each(|(block, part)| survey.blocks[block].claims.push(Claim { slot, part }));
    }
}

fn word(bytes: &[u8], index: usize) -> u32 {
    u32::from_be_bytes(bytes.as_chunks().0[index])
}

fn zero_ended(field: &[u8]) -> Option<Vec<u8>> {
    let length = field.iter().position(|&byte| byte == 0)?;
    Some(field[..length].to_vec())
}
