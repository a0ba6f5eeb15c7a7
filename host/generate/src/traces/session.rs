//! Sessions: requests on a volume with the answers that the reference gives.

use std::num::NonZeroU32;

use reference::request::{Arguments, Request};
use reference::tfs::{self, LARGEST_FILE};
use reference::trace::{write_all, Expected, Record};
use reference::Refusal;

use crate::cases::tfs_arguments;
use crate::tfs::Volume;
use crate::Random;

const REQUESTS: [Request; 10] = [
    Request::TfsCreate,
    Request::TfsCreate,
    Request::TfsCreate,
    Request::TfsRemove,
    Request::TfsRead,
    Request::TfsRead,
    Request::TfsRead,
    Request::TfsWrite,
    Request::TfsWrite,
    Request::TfsFree,
];

/// How much a session has.
#[derive(Clone, Copy, Debug)]
pub struct Plan {
    /// The number of requests.
    pub requests: usize,
    /// The greatest number of bytes that a request moves, but for some reads of a whole file.
    pub longest: usize,
}

impl Plan {
    /// A few requests that move few bytes.
    pub fn small(random: &mut Random) -> Self {
        Self {
            requests: random.between(1, 8),
            longest: random.pick(&[0, 3, 20, 40, 130, 600]),
        }
    }
}

/// Draws a session on a volume and gives its trace; the volume stays as it is.
pub fn session(random: &mut Random, made: &Volume, plan: Plan) -> Vec<u8> {
    let mut made = made.clone();
    let mut trace = Vec::new();
    for _ in 0..plan.requests {
        let request = random.pick(&REQUESTS);
        let mut arguments = tfs_arguments(random, &made, request);
        arguments.buffer.truncate(plan.longest);
        twist(random, request, &mut arguments);
        trace.extend(asked(random, &mut made, request, &arguments, plan));
    }
    trace
}

/// Now and then takes a small size, and an offset at the far end.
fn twist(random: &mut Random, request: Request, arguments: &mut Arguments) {
    if request == Request::TfsCreate && random.one_in(2) {
        arguments.number = random.below(1500) as u32;
    }
    if random.one_in(12) {
        let far = [
            LARGEST_FILE,
            LARGEST_FILE + 1,
            1 << 28,
            u32::MAX - 1,
            u32::MAX,
        ];
        arguments.number = random.pick(&far);
    }
}

/// Makes a request and gives its record.
fn asked(
    random: &mut Random,
    made: &mut Volume,
    request: Request,
    arguments: &Arguments,
    plan: Plan,
) -> Vec<u8> {
    let Arguments {
        number,
        ref name,
        ref buffer,
        ..
    } = *arguments;
    let record = match request {
        Request::TfsCreate => Record::Create {
            name,
            size: number,
            expected: create(made, name, number),
        },
        Request::TfsRemove => Record::Remove {
            name,
            expected: remove(made, name),
        },
        Request::TfsRead => return read(random, &made.image, arguments, plan),
        Request::TfsWrite => {
            let written = tfs::write(&mut made.image, name, number, buffer);
            Record::Write {
                name,
                offset: number,
                bytes: buffer,
                expected: expected(written.map(|written| written.count)),
            }
        }
        _ => Record::FreeBytes {
            expected: expected(tfs::free_bytes(&made.image)),
        },
    };
    encoded(record)
}

fn create(made: &mut Volume, name: &[u8], size: u32) -> Expected<()> {
    let created = tfs::create(&mut made.image, name, size);
    if let Ok(inode) = created {
        let image = std::mem::take(&mut made.image);
        made.created(&image, name, inode, size);
        made.image = image;
    }
    expected(created.map(drop))
}

fn remove(made: &mut Volume, name: &[u8]) -> Expected<()> {
    let removed = tfs::remove(&mut made.image, name);
    if removed.is_ok() {
        made.removed(name);
    }
    expected(removed)
}

/// Gives the record of a read, whose buffer may be longer than any file.
fn read(random: &mut Random, image: &[u8], arguments: &Arguments, plan: Plan) -> Vec<u8> {
    let Arguments { number, name, .. } = arguments;
    let mut content = vec![0; LARGEST_FILE as usize];
    let behind = tfs::read(image, name, *number, &mut content);
    content.truncate(behind.map_or(0, |read| read.count) as usize);
    let longer = [65_024, 65_025, 1 << 20, 1 << 31, u32::MAX - 1, u32::MAX];
    let length = match content.len() <= plan.longest.max(600) && random.one_in(6) {
        true => random.pick(&longer),
        false => arguments.buffer.len() as u32,
    };
    content.truncate(length as usize);
    encoded(Record::Read {
        name,
        offset: *number,
        length,
        expected: expected(behind.map(|_| &content[..])),
    })
}

fn encoded(record: Record<'_>) -> Vec<u8> {
    write_all(&[record]).expect("a record of lengths below 2^32")
}

/// An answer as a record expects it.
fn expected<T>(answer: Result<T, Refusal>) -> Expected<T> {
    answer.map_err(|refusal| NonZeroU32::new(refusal.number).expect("a refusal"))
}
