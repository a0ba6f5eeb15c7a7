//! One form for all requests: which one it is, and what it is given besides the image.

use crate::romfs;
use crate::tfs::{self, Listing, Transferred};
use crate::timing::{self, Timing};
use crate::trace::{self, Draft, Entry, Replayed};
use crate::Refusal;

/// A request, with the number that stands for it where requests are stored.
#[derive(Clone, Copy, Debug, PartialEq, Eq, Hash)]
pub enum Request {
    /// Check of a TFS volume.
    TfsCheck = 1,
    /// Format with a name.
    TfsFormat = 2,
    /// Create of a name with a size.
    TfsCreate = 3,
    /// Remove of a name.
    TfsRemove = 4,
    /// Read of a name from an offset on into a buffer.
    TfsRead = 5,
    /// Write of a name from an offset on out of a buffer.
    TfsWrite = 6,
    /// List of a slot.
    TfsList = 7,
    /// Free bytes.
    TfsFree = 8,
    /// Replay of a trace, which the buffer holds.
    TfsReplay = 9,
    /// Read of the record at a position of a trace, which the buffer holds.
    TraceRead = 10,
    /// Write of a record over the start of the image; the buffer holds the record's bytes.
    TraceWrite = 11,
    /// The k-th store of a create of a name with a size, into a buffer.
    TfsCreateStore = 12,
    /// The k-th store of a remove of a name, into a buffer.
    TfsRemoveStore = 13,
    /// The k-th store of a write of bytes to a name from an offset on, into a buffer.
    TfsWriteStore = 14,
    /// Mend of a TFS volume.
    TfsMend = 15,
    /// Check of a romfs image.
    RomCheck = 17,
    /// Find of a name in a directory.
    RomFind = 18,
    /// Entry at a header.
    RomEntry = 19,
    /// Length of the content of a header.
    RomLength = 20,
    /// Content of a header.
    RomContent = 21,
    /// Store of numbers and values in the timing file.
    TimingStore = 22,
    /// Opening of the lid.
    TimingOpenLid = 23,
    /// Boot with a board and a maker number.
    TimingBoot = 24,
    /// The k-th store of a store of numbers and values, into a buffer.
    TimingStoreBlock = 25,
    /// The k-th store of an opening, into a buffer.
    TimingOpenLidBlock = 26,
}

/// The requests on a TFS volume that check it first, but for replay and those on the timing file,
/// which make such requests.
pub const CHECKING: [Request; 10] = [
    Request::TfsCheck,
    Request::TfsCreate,
    Request::TfsRemove,
    Request::TfsRead,
    Request::TfsWrite,
    Request::TfsList,
    Request::TfsFree,
    Request::TfsCreateStore,
    Request::TfsRemoveStore,
    Request::TfsWriteStore,
];

/// What a request is given besides the image.
#[derive(Clone, Debug, Default, PartialEq, Eq)]
pub struct Arguments {
    /// The size, offset, slot, position, directory or header.
    pub number: u32,
    /// The name.
    pub name: Vec<u8>,
    /// The buffer as it is before the request.
    pub buffer: Vec<u8>,
    /// Which store is asked for, from 1.
    pub k: usize,
    /// The bytes to be written whose store is asked for.
    pub bytes: Vec<u8>,
    /// The numbers of a record that is to be written.
    pub entry: Entry,
    /// The numbers and the values of a store; a boot takes the numbers alone.
    pub timing: Timing,
}

/// The numbers of a granted result, and its name or content.
pub type Granted = (Vec<u32>, Vec<u8>);

/// Makes a request; the buffer is given besides the arguments because a read or a store changes it.
pub fn run(
    request: Request,
    arguments: &Arguments,
    image: &mut [u8],
    buffer: &mut [u8],
) -> Result<Granted, Refusal> {
    let Arguments {
        number, ref name, ..
    } = *arguments;
    match request {
        Request::TfsCheck => tfs::check(image).map(nothing),
        Request::TfsFormat => tfs::format(image, name).map(nothing),
        Request::TfsCreate => tfs::create(image, name, number).map(one),
        Request::TfsRemove => tfs::remove(image, name).map(nothing),
        Request::TfsRead => tfs::read(image, name, number, buffer).map(moved),
        Request::TfsWrite => tfs::write(image, name, number, buffer).map(moved),
        Request::TfsList => tfs::list(image, number).map(listed),
        Request::TfsFree => tfs::free_bytes(image).map(one),
        Request::TfsCreateStore | Request::TfsRemoveStore | Request::TfsWriteStore => {
            store(request, arguments, image, buffer).map(one)
        }
        Request::TfsMend => tfs::mend(image).map(nothing),
        Request::TfsReplay => trace::replay(image, buffer).map(ended),
        Request::TraceRead => Ok((read_record(buffer, number).to_vec(), Vec::new())),
        Request::TraceWrite => write_record(arguments, image, buffer).map(one),
        Request::RomCheck => romfs::check(image).map(nothing),
        Request::RomFind => romfs::find(image, number, name).map(one),
        Request::RomEntry => romfs::entry(image, number).map(described),
        Request::RomLength => romfs::content_length(image, number).map(one),
        Request::RomContent => Ok(part(romfs::content(image, number))),
        Request::TimingStore => timing::store(image, &arguments.timing).map(nothing),
        Request::TimingOpenLid => timing::open_lid(image).map(nothing),
        Request::TimingBoot => boot(&arguments.timing, image),
        Request::TimingStoreBlock => {
            timing::store_block(image, &arguments.timing, arguments.k, buffer).map(one)
        }
        Request::TimingOpenLidBlock => timing::open_lid_block(image, arguments.k, buffer).map(one),
    }
}

/// The values of a granted boot.
fn boot(timing: &Timing, image: &[u8]) -> Result<Granted, Refusal> {
    let booted = timing::boot(image, timing.board, timing.maker);
    booted.answer?;
    Ok((booted.values.map(u32::from).to_vec(), Vec::new()))
}

/// The k-th store of a create, a remove or a write.
fn store(
    request: Request,
    arguments: &Arguments,
    image: &[u8],
    buffer: &mut [u8],
) -> Result<u32, Refusal> {
    let Arguments {
        number,
        k,
        ref name,
        ref bytes,
        ..
    } = *arguments;
    match request {
        Request::TfsCreateStore => tfs::create_store(image, name, number, k, buffer),
        Request::TfsRemoveStore => tfs::remove_store(image, name, k, buffer),
        _ => tfs::write_store(image, name, number, bytes, k, buffer),
    }
}

/// Writes the record of arguments and a buffer, and gives its length.
fn write_record(arguments: &Arguments, out: &mut [u8], bytes: &[u8]) -> Result<u32, Refusal> {
    let draft = Draft {
        entry: arguments.entry,
        name: &arguments.name,
        bytes,
    };
    draft.write(out).map(|length| length as u32)
}

/// The result of a request that gives content.
fn part(content: &[u8]) -> Granted {
    (vec![content.len() as u32], content.to_vec())
}

/// The result of a request that gives none.
fn nothing((): ()) -> Granted {
    (Vec::new(), Vec::new())
}

/// The result of a request that gives a number.
fn one(value: u32) -> Granted {
    (vec![value], Vec::new())
}

/// The result of a read or a write: the count, and how many blocks its range meets.
fn moved(Transferred { count, blocks }: Transferred) -> Granted {
    (vec![count, blocks], Vec::new())
}

/// The end of a replay: 0 all records, 1 malformed, 2 differs; then how many, or which from 1.
fn ended(replayed: Replayed) -> Granted {
    let (outcome, number) = match replayed {
        Replayed::All(count) => (0, count),
        Replayed::Malformed(number) => (1, number),
        Replayed::Differs(number) => (2, number),
    };
    (vec![outcome, number as u32], Vec::new())
}

/// The numbers of a record; where its name and bytes lie, and where the next record starts. Those
/// that it does not have are 0, and all where it is malformed.
fn read_record(trace: &[u8], at: u32) -> [u32; 11] {
    let Some((record, next)) = trace::read(trace, at as usize) else {
        return [0; 11];
    };
    let Draft { entry, name, bytes } = Draft::from(record);
    let part = |has: bool, part: &[u8]| match has {
        true => [part.as_ptr() as usize - trace.as_ptr() as usize, part.len()],
        false => [0; 2],
    };
    let has_bytes = entry.kind == 4 || entry.kind == 3 && entry.refusal == 0;
    let [name_at, name_length] = part(entry.kind != 5, name).map(|number| number as u64);
    let [bytes_at, bytes_length] = part(has_bytes, bytes).map(|number| number as u64);
    [
        entry.kind,
        entry.size,
        entry.offset,
        entry.length,
        entry.refusal,
        entry.value,
        name_at,
        name_length,
        bytes_at,
        bytes_length,
        next as u64,
    ]
    .map(|number| number as u32)
}

/// A slot: 0 if it is free, else 1, inode number, size and name.
fn listed(listing: Listing) -> Granted {
    match listing {
        Listing::Free => one(0),
        Listing::Used { name, inode, size } => (vec![1, inode, size], name.to_vec()),
    }
}

/// The numbers of an entry.
fn described(entry: romfs::Entry) -> Granted {
    let values = vec![
        entry.file_type as u32,
        u32::from(entry.executable),
        entry.info,
        entry.size,
        entry.next,
        entry.name_length,
    ];
    (values, Vec::new())
}
