//! Times of reads and writes, by the volume and by the range of the file.

use reference::tfs::LARGEST_FILE;

use crate::less_check::{times, Tables, Way};
#[cfg(before)]
use crate::linked;
use crate::table::Table;
use crate::volumes::{copied_from, Kind, ALONE, LEFTOVERS, SCATTERED, WITH_DATA};

/// Where the bytes of a transfer stand.
#[derive(Clone, Copy)]
struct At {
    file: &'static [u8],
    offset: u32,
    /// Where a copy has them in the image.
    place: usize,
}

/// A program that moves content, or as many bytes with no regard to files; each request gives the count.
#[derive(Clone, Copy)]
struct Program {
    name: &'static str,
    read: fn(&[u8], At, &mut [u8]) -> u32,
    write: fn(&mut [u8], At, &[u8]) -> u32,
    check: Option<fn(&[u8])>,
}

/// The program whose requests a module has, and how the count is taken from what they grant.
macro_rules! program {
    ($name:expr, $tfs:path, $count:expr) => {{
        use $tfs as tfs;
        Program {
            name: $name,
            read: |image, at, buffer| {
                $count(tfs::read(image, at.file, at.offset, buffer).expect("read"))
            },
            write: |image, at, bytes| {
                $count(tfs::write(image, at.file, at.offset, bytes).expect("write"))
            },
            check: Some(|image| tfs::check(image).expect("check")),
        }
    }};
}

const PROVED: Program = program!("proved", proved::tfs, |moved: proved::tfs::Transferred| {
    moved.count
});

const REFERENCE: Program = program!(
    "reference",
    reference::tfs,
    |moved: reference::tfs::Transferred| moved.count
);

const COPY: Program = Program {
    name: "copy",
    read: |image, at, buffer| {
        buffer.copy_from_slice(&image[at.place..][..buffer.len()]);
        buffer.len() as u32
    },
    write: |image, at, bytes| {
        image[at.place..][..bytes.len()].copy_from_slice(bytes);
        bytes.len() as u32
    },
    check: None,
};

/// A range of the largest file in volumes of a kind.
struct Range {
    title: &'static str,
    kind: Kind,
    offset: u32,
    length: usize,
}

impl Range {
    const fn new(title: &'static str, kind: Kind, offset: u32, length: usize) -> Self {
        Self {
            title,
            kind,
            offset,
            length,
        }
    }

    /// The first bytes of the file, under the title of the volumes.
    const fn first(kind: Kind, length: usize) -> Self {
        Self::new(kind.title, kind, 0, length)
    }

    fn at(&self) -> At {
        let Kind { name, make, .. } = self.kind;
        At {
            file: name,
            offset: self.offset,
            place: copied_from(&make(1), name) + self.offset as usize,
        }
    }
}

/// The length of the whole file.
const ALL: usize = LARGEST_FILE as usize;

/// Ranges of few bytes.
const FEW: [Range; 7] = [
    Range::new("0 bytes inside a block", ALONE, 700, 0),
    Range::new("64 bytes inside a block", ALONE, 700, 64),
    Range::new("2 bytes over an edge", ALONE, 511, 2),
    Range::new("2 bytes over an edge, scattered", SCATTERED, 511, 2),
    Range::new("64 bytes over an edge", ALONE, 480, 64),
    Range::new("64 bytes over an edge, scattered", SCATTERED, 480, 64),
    Range::new("600 bytes over two edges, scattered", SCATTERED, 500, 600),
];

/// Reads and writes of a few bytes by the volume; the whole times alone.
pub fn by_volume(rounds: usize) -> Vec<Table> {
    let kinds = WITH_DATA.into_iter().chain([LEFTOVERS]);
    let ranges: Vec<Range> = kinds.map(|kind| Range::first(kind, 64)).collect();
    let title = "TFS: read and write of 64 bytes";
    let mut tables = compared(rounds, title, &[PROVED, REFERENCE], &ranges);
    tables.truncate(1);
    tables
}

/// Reads and writes of a whole file of the largest size, beside a plain copy.
pub fn whole_files(rounds: usize) -> Vec<Table> {
    let ranges = WITH_DATA.map(|kind| Range::first(kind, ALL));
    let title = "TFS: read and write of 65,024 bytes";
    compared(rounds, title, &[PROVED, REFERENCE, COPY], &ranges)
}

/// Reads and writes of few bytes by the range.
pub fn few_bytes(rounds: usize) -> Vec<Table> {
    let title = "TFS: read and write of few bytes, in a volume of 2 MiB with one file";
    compared(rounds, title, &[PROVED, REFERENCE], &FEW)
}

/// Reads and writes of few bytes and of a whole file, beside the older library.
#[cfg(before)]
pub fn beside_before(rounds: usize) -> Vec<Table> {
    let whole = [
        Range::new("65,024 bytes", ALONE, 0, ALL),
        Range::new("65,024 bytes, scattered", SCATTERED, 0, ALL),
    ];
    let ranges: Vec<Range> = FEW.into_iter().chain(whole).collect();
    let programs = [
        program!("proved", linked::now, |count| count),
        program!("before", linked::before, |count| count),
    ];
    let title = "TFS: read and write beside the older library, in a volume of 2 MiB with one file";
    compared(rounds, title, &programs, &ranges)
}

/// The times of all programs in reads and writes of these ranges.
fn compared(rounds: usize, title: &str, programs: &[Program], ranges: &[Range]) -> Vec<Table> {
    let names: Vec<&str> = programs.iter().map(|program| program.name).collect();
    let mut tables = Tables::new(title, &names);
    for range in ranges {
        let at = range.at();
        let mut row = |request: &str, way: fn(Program, At, usize) -> Way| {
            let ways = programs
                .iter()
                .map(|program| way(*program, at, range.length));
            let times = times(rounds, &mut ways.collect::<Vec<_>>(), range.kind.make);
            tables.row(&format!("{request}, {}", range.title), &times);
        };
        row("read", reading);
        row("write", writing);
    }
    tables.done()
}

fn reading(program: Program, at: At, length: usize) -> Way {
    Way {
        name: program.name,
        request: Box::new(move |image, buffer| (program.read)(image, at, &mut buffer[..length])),
        check: program.check,
    }
}

fn writing(program: Program, at: At, length: usize) -> Way {
    Way {
        name: program.name,
        request: Box::new(move |image, buffer| (program.write)(image, at, &buffer[..length])),
        check: program.check,
    }
}

#[cfg(test)]
mod tests {
    use super::*;
    use generate::Random;

    /// A volume of a kind, where the first bytes of its file stand, and other bytes for all of it.
    fn made(kind: Kind) -> (Vec<u8>, At, Vec<u8>) {
        let bytes = Random::new(7).bytes(ALL);
        ((kind.make)(1), Range::first(kind, ALL).at(), bytes)
    }

    #[test]
    fn a_copy_moves_the_bytes_of_a_file_in_blocks_one_after_another() {
        for kind in &WITH_DATA[..3] {
            let (mut image, at, bytes) = made(*kind);
            let mut buffer = vec![0; ALL];
            (REFERENCE.write)(&mut image, at, &bytes);
            (COPY.read)(&image, at, &mut buffer);
            assert!(buffer == bytes, "read, {}", kind.title);
            image = (kind.make)(1);
            (COPY.write)(&mut image, at, &bytes);
            (REFERENCE.read)(&image, at, &mut buffer);
            assert!(buffer == bytes, "write, {}", kind.title);
        }
    }

    #[test]
    fn a_copy_beside_scattered_blocks_leaves_the_volume_as_it_is() {
        let (mut image, at, bytes) = made(SCATTERED);
        let before = image.clone();
        (COPY.write)(&mut image, at, &bytes);
        assert!(image[at.place..] == bytes && image[..at.place] == before[..at.place]);
        assert_eq!(reference::tfs::check(&image[..at.place]), Ok(()));
    }
}
