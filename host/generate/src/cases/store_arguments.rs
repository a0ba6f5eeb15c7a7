//! Arguments of requests for the k-th store.

use reference::request::{Arguments, Request};
use reference::tfs::{blocks_met, BLOCK_SIZE, LARGEST_FILE};

use crate::tfs::Volume;
use crate::Random;

/// The request that a k-th store is one of; nothing for other requests.
pub fn stored(request: Request) -> Option<Request> {
    match request {
        Request::TfsCreateStore => Some(Request::TfsCreate),
        Request::TfsRemoveStore => Some(Request::TfsRemove),
        Request::TfsWriteStore => Some(Request::TfsWrite),
        _ => None,
    }
}

/// Turns the arguments of a create, a remove or a write on a volume into those of one of its stores.
pub fn store_arguments(
    random: &mut Random,
    made: &Volume,
    request: Request,
    arguments: Arguments,
) -> Arguments {
    let last = count(made, request, &arguments);
    Arguments {
        k: some_k(random, last),
        bytes: match request {
            Request::TfsWriteStore => arguments.buffer,
            _ => Vec::new(),
        },
        buffer: some_room(random),
        ..arguments
    }
}

/// How many stores the request has if it is granted.
pub(super) fn count(made: &Volume, request: Request, arguments: &Arguments) -> usize {
    match request {
        Request::TfsCreateStore => {
            let size = arguments.number.min(LARGEST_FILE) as usize;
            size.div_ceil(BLOCK_SIZE) + 3
        }
        Request::TfsRemoveStore => 2,
        _ => {
            let mut files = made.files.iter();
            let file = files.find(|file| file.name == arguments.name);
            let offset = arguments.number;
            let behind = file.map_or(0, |file| file.size.saturating_sub(offset)) as usize;
            let count = behind.min(arguments.buffer.len());
            blocks_met(offset, count as u32, BLOCK_SIZE as u32) as usize
        }
    }
}

/// A number of a store, mostly one of those that there are; some are right in their lower 32 bits
/// only.
pub(crate) fn some_k(random: &mut Random, last: usize) -> usize {
    let inside = random.between(1, last.max(1));
    let high = usize::from(random.nonzero()) << 32;
    let far = random.pick(&[
        1 << 32,
        (1 << 32) + inside,
        (1 << 32) + last,
        high + inside,
        1 << 63 | inside,
        usize::MAX,
        usize::MAX - 1,
    ]);
    let edges = [0, 1, last, last + 1, last.saturating_sub(1), last + 2, 512];
    match random.below(10) {
        0..=4 => inside,
        5..=8 => random.pick(&edges),
        _ => far,
    }
}

/// A buffer of noise, mostly with room for a block.
pub(crate) fn some_room(random: &mut Random) -> Vec<u8> {
    let longer = random.between(514, 1_500);
    let length = match random.below(8) {
        0 => random.pick(&[0, 0, 1, 511, 511, 511]),
        1..=2 => 513,
        3 => longer,
        _ => 512,
    };
    random.bytes(length)
}
