//! A request that changes a volume, to be made at once or store by store.

use reference::request::{Arguments, Request};
use reference::tfs::{BLOCK_SIZE, LARGEST_FILE};
use reference::timing::Timing;

use super::standing::contents;
use crate::cases::around_edges;
use crate::tfs::{File, Volume};
use crate::timing::{self, some_timing};
use crate::Random;

/// A create, a remove or a write; a store of the timing file or an opening of the lid.
#[derive(Clone, Debug, PartialEq, Eq)]
pub enum Change {
    /// A file of this name and size is made.
    Create(Vec<u8>, u32),
    /// The file of this name goes.
    Remove(Vec<u8>),
    /// These bytes are written into the file of this name, from this offset on.
    Write(Vec<u8>, u32, Vec<u8>),
    /// These numbers and values go into the timing file, which is made if it is absent.
    Store(Timing),
    /// The board number of the timing file becomes 0.
    OpenLid,
}

impl Change {
    /// Draws a change that is granted on a volume, and of a kind (0 create, 1 remove, 2 write, 3 store,
    /// 4 opening) that it has the room or the files for.
    pub fn draw(random: &mut Random, made: &Volume, kind: usize) -> Option<Self> {
        let files: Vec<&File> = made.files.iter().collect();
        match kind {
            0 => Self::create(random, made),
            1 => Some(Self::Remove(random.choose(&files)?.name.clone())),
            3 => Self::store_of_timing(random, made),
            4 => timing::held(&made.image).map(|_| Self::OpenLid),
            _ => {
                let (one, other) = (random.choose(&files)?, random.choose(&files)?);
                let file = if one.size < other.size { other } else { one };
                Some(Self::write(random, made, file))
            }
        }
    }

    /// A create of a name that does not stand: of no bytes, of few, of about a block or of many.
    fn create(random: &mut Random, made: &Volume) -> Option<Self> {
        made.free_slot()?;
        let room = (BLOCK_SIZE * made.free_blocks().checked_sub(1)?) as u32;
        let most = room.min(LARGEST_FILE);
        let any = random.below(most as usize + 1) as u32;
        let sizes = [0, 1, 511, 512, 513, 1_024, any, any, most];
        let size = random.pick(&sizes).min(most);
        let name = loop {
            let length = random.between(1, 15);
            let name = random.name(length);
            if made.files.iter().all(|file| file.name != name) {
                break name;
            }
        };
        Some(Self::Create(name, size))
    }

    /// A write around the edges of blocks, or of the whole file; one in five writes what stands.
    fn write(random: &mut Random, made: &Volume, file: &File) -> Self {
        let range = around_edges(random, file.size);
        let (offset, length) = match random.one_in(5) {
            true => (0, file.size as usize),
            false => (range.offset, range.length),
        };
        let mut bytes = random.bytes(length);
        if random.one_in(5) {
            let content = &contents(&made.image)[&file.name][offset as usize..];
            let count = length.min(content.len());
            bytes[..count].copy_from_slice(&content[..count]);
        }
        Self::Write(file.name.clone(), offset, bytes)
    }

    /// A store, if the timing file has its size, or is absent and has a slot and the room; often with
    /// the numbers that it holds.
    fn store_of_timing(random: &mut Random, made: &Volume) -> Option<Self> {
        let held = timing::held(&made.image);
        let stands = made.files.iter().any(|file| file.name == timing::NAME);
        let creates = !stands && made.free_slot().is_some() && made.free_blocks() >= 2;
        let known = held.filter(|held| held.board != 0);
        let timing = some_timing(random, known.as_slice());
        let board = timing.board.max(1);
        (held.is_some() || creates).then_some(Self::Store(Timing { board, ..timing }))
    }

    /// The whole request.
    pub fn whole(&self) -> (Request, Arguments) {
        let arguments = |number: u32, name: &[u8], buffer: &[u8]| Arguments {
            number,
            name: name.to_vec(),
            buffer: buffer.to_vec(),
            ..Arguments::default()
        };
        match self {
            Self::Create(name, size) => (Request::TfsCreate, arguments(*size, name, b"")),
            Self::Remove(name) => (Request::TfsRemove, arguments(0, name, b"")),
            Self::Write(name, offset, bytes) => {
                (Request::TfsWrite, arguments(*offset, name, bytes))
            }
            Self::Store(timing) => {
                let arguments = Arguments {
                    timing: *timing,
                    ..Arguments::default()
                };
                (Request::TimingStore, arguments)
            }
            Self::OpenLid => (Request::TimingOpenLid, Arguments::default()),
        }
    }

    /// The request of its k-th store, into a buffer of noise.
    pub fn store(&self, random: &mut Random, k: usize) -> (Request, Arguments) {
        let (whole, arguments) = self.whole();
        let length = random.pick(&[512, 512, 513, 600]);
        let arguments = Arguments {
            k,
            bytes: arguments.buffer,
            buffer: random.bytes(length),
            ..arguments
        };
        let request = match whole {
            Request::TfsCreate => Request::TfsCreateStore,
            Request::TfsRemove => Request::TfsRemoveStore,
            Request::TimingStore => Request::TimingStoreBlock,
            Request::TimingOpenLid => Request::TimingOpenLidBlock,
            _ => Request::TfsWriteStore,
        };
        (request, arguments)
    }
}
