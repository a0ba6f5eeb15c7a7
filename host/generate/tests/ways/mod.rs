//! How a slot breaks rule 4, as its bytes tell.

use generate::tfs::{has_leftovers, SlotFault};

fn slot(image: &[u8], s: usize) -> (u32, &[u8]) {
    let (inode, name) = image[1024 + 20 * s..1044 + 20 * s].split_at(4);
    (u32::from_be_bytes(inode.try_into().unwrap()), name)
}

/// The name up to its zero.
fn name(image: &[u8], s: usize) -> &[u8] {
    slot(image, s).1.split(|&byte| byte == 0).next().unwrap()
}

/// The way in which the slot at a place breaks rule 4, and whether leftovers stand behind its name;
/// of a repeated name, whether they differ from those of the lower slot.
pub fn way(image: &[u8], place: u32) -> (SlotFault, bool) {
    let s = place as usize;
    let blocks = (image.len() / 512).min(4096) as u32;
    let (inode, field) = slot(image, s);
    let way = match (inode, field[0]) {
        (0, first) if first != 0 => SlotFault::NoInode,
        (_, 0) => SlotFault::NoName,
        _ if !field.contains(&0) => SlotFault::NoEnd,
        _ if !(3..blocks).contains(&inode) => SlotFault::InodeOutside,
        _ => {
            let lower = (0..s).find(|lower| name(image, *lower) == name(image, s));
            let lower = slot(image, lower.expect("a lower slot of that name"));
            return (SlotFault::Repeated, lower.1 != field);
        }
    };
    (way, has_leftovers(image, s))
}
