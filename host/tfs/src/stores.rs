//! Changes of a volume made store by store, so that power may be taken between any two of them.

use proved::timing::{self, VALUES};
use proved::{tfs, Refusal};
use std::fs::File;
use std::io;
use std::os::unix::fs::FileExt;

/// The number of bytes in a block.
pub const BLOCK_SIZE: usize = 512;

/// The number of the map's block, the one that a mend changes.
const MAP: u32 = 1;

/// The refusal of a store behind the last.
const NO_SUCH_STORE: u32 = 32;

/// A request that changes a volume.
pub enum Change<'a> {
    /// A file of this name and size is made.
    Create(&'a [u8], u32),
    /// The file of this name goes.
    Remove(&'a [u8]),
    /// From this offset on, these bytes are written into the file of this name.
    Write(&'a [u8], u32, &'a [u8]),
    /// The bits of the map that nobody claims are cleared.
    Mend,
    /// The timing file gets this board number, this maker number and these values.
    StoreTiming(u32, u32, &'a [u16; VALUES]),
    /// The board number in the timing file becomes 0.
    OpenLid,
}

/// A block with its number.
type Block = (u32, [u8; BLOCK_SIZE]);

impl Change<'_> {
    /// The k-th store of the change, from 1.
    fn store(&self, volume: &[u8], k: usize) -> Result<Block, Refusal> {
        let mut block = [0; BLOCK_SIZE];
        let number = match *self {
            Self::Create(name, size) => tfs::create_store(volume, name, size, k, &mut block),
            Self::Remove(name) => tfs::remove_store(volume, name, k, &mut block),
            Self::Write(name, offset, bytes) => {
                tfs::write_store(volume, name, offset, bytes, k, &mut block)
            }
            Self::Mend => mended(volume, k, &mut block),
            Self::StoreTiming(board, maker, values) => {
                timing::store_block(volume, board, maker, values, k, &mut block)
            }
            Self::OpenLid => timing::open_lid_block(volume, k, &mut block),
        }?;
        Ok((number, block))
    }

    /// Makes the whole change.
    fn make(&self, volume: &mut [u8]) -> Result<(), Refusal> {
        match *self {
            Self::Create(name, size) => tfs::create(volume, name, size).map(drop),
            Self::Remove(name) => tfs::remove(volume, name),
            Self::Write(name, offset, bytes) => tfs::write(volume, name, offset, bytes).map(drop),
            Self::Mend => tfs::mend(volume),
            Self::StoreTiming(board, maker, values) => timing::store(volume, board, maker, values),
            Self::OpenLid => timing::open_lid(volume),
        }
    }
}

/// The one store of a mend: the map.
fn mended(volume: &[u8], k: usize, block: &mut [u8; BLOCK_SIZE]) -> Result<u32, Refusal> {
    let mut volume = volume.to_vec();
    tfs::mend(&mut volume)?;
    if k > 1 {
        return Err(Refusal {
            number: NO_SUCH_STORE,
            place: 0,
        });
    }
    block.copy_from_slice(&volume[BLOCK_SIZE..2 * BLOCK_SIZE]);
    Ok(MAP)
}

/// Why a series of stores stopped.
#[derive(Debug)]
pub enum Trouble {
    /// A change is refused; of it nothing is stored.
    Refused(Refusal),
    /// A store failed, after so many; whether its block has been stored is not known.
    Store(io::Error, usize),
}

/// Makes changes one after another. The stores of each go to `store` in their order, which
/// returns when the block has been stored; then the volume in memory follows.
pub fn program(
    volume: &mut [u8],
    changes: &[Change<'_>],
    mut store: impl FnMut(u32, &[u8]) -> io::Result<()>,
) -> Result<(), Trouble> {
    let mut stored = 0;
    for change in changes {
        stored += series(volume, change, stored, &mut store)?;
        change.make(volume).map_err(Trouble::Refused)?;
    }
    Ok(())
}

/// Makes the stores of one change, after so many of others, and gives how many they are.
fn series(
    volume: &[u8],
    change: &Change<'_>,
    before: usize,
    store: &mut impl FnMut(u32, &[u8]) -> io::Result<()>,
) -> Result<usize, Trouble> {
    let mut stored = 0;
    loop {
        match change.store(volume, stored + 1) {
            Ok((number, block)) => {
                store(number, &block).map_err(|error| Trouble::Store(error, before + stored))?;
                stored += 1;
            }
            Err(refusal) if refusal.number == NO_SUCH_STORE => return Ok(stored),
            Err(refusal) => return Err(Trouble::Refused(refusal)),
        }
    }
}

/// Stores a block in a file and waits until it is flushed.
pub fn store_in(file: &File, number: u32, block: &[u8]) -> io::Result<()> {
    let at = BLOCK_SIZE as u64 * u64::from(number);
    file.write_all_at(block, at)?;
    file.sync_data()
}

#[cfg(test)]
mod tests;
