//! Volumes of 4,096 blocks and images longer than that, on both programs.

use compare::sides::{proved, reference};
use compare::{Answer, Pair};
use generate::romfs::tree_rom;
use generate::Random;
use reference::request::{Arguments, Request};

const MOST: usize = 2_097_152;
const LENGTHS: [usize; 6] = [MOST, MOST + 1, MOST + 511, MOST + 512, 2_097_664, 3_000_000];

struct Large {
    random: Random,
    pair: Pair,
    past: Vec<u8>,
}

impl Large {
    /// A volume in an image of noise.
    fn formatted(length: usize) -> Self {
        let mut random = Random::new(length as u64);
        let image = random.bytes(length);
        let pair = Pair::new(&mut random, [proved, reference], &image);
        let past = image[MOST.min(length)..].to_vec();
        let mut large = Self { random, pair, past };
        assert_eq!(
            large.ask(Request::TfsFormat, 0, b"LARGE"),
            Answer::default()
        );
        large
    }

    /// The same with another image of the same length.
    fn holding(mut self, image: &[u8]) -> Self {
        self.pair = Pair::new(&mut self.random, [proved, reference], image);
        self
    }

    fn ask(&mut self, request: Request, number: u32, name: &[u8]) -> Answer {
        self.transfer(request, number, name, b"")
    }

    fn transfer(&mut self, request: Request, number: u32, name: &[u8], buffer: &[u8]) -> Answer {
        let arguments = Arguments {
            number,
            name: name.to_vec(),
            buffer: buffer.to_vec(),
            ..Arguments::default()
        };
        self.make(request, &arguments)
    }

    /// The number of the block of a store, 0 where it is refused.
    fn store(&mut self, request: Request, number: u32, name: &[u8], k: usize) -> u32 {
        let arguments = Arguments {
            number,
            name: name.to_vec(),
            k,
            bytes: vec![0x55; 600],
            buffer: vec![0xAA; 513],
            ..Arguments::default()
        };
        self.make(request, &arguments).value()
    }

    /// Makes a request on both programs; the bytes past block 4095 stay.
    fn make(&mut self, request: Request, arguments: &Arguments) -> Answer {
        let answer = self.pair.request(&mut self.random, request, arguments);
        let answer = answer.unwrap_or_else(|difference| panic!("{difference}"));
        let image = self.pair.image();
        assert!(image[MOST.min(image.len())..] == self.past[..]);
        answer
    }

    fn free(&mut self) -> u32 {
        self.ask(Request::TfsFree, 0, b"").value()
    }
}

#[test]
fn longer_images_have_4096_blocks() {
    for length in LENGTHS {
        let mut large = Large::formatted(length);
        assert_eq!(large.free(), 2_095_616, "{length}");
        let map = &large.pair.image()[512..1024];
        assert!(map[..4] == [0, 0, 0, 7] && map[4..].iter().all(|byte| *byte == 0));
    }
}

#[test]
fn a_byte_less_has_a_block_less() {
    let mut large = Large::formatted(MOST - 1);
    assert_eq!(large.free(), 2_095_616 - 512);
}

/// Makes a file "LAST" of 512 bytes with inode 4094 and content block 4095.
///
/// No create takes these: 25 files have 3,200 blocks at most, and the lowest free ones.
fn with_last_blocks(length: usize) -> Large {
    let formatted = Large::formatted(length);
    let mut image = formatted.pair.image().to_vec();
    image[512 + 508] = 0xC0;
    image[1024..1032].copy_from_slice(b"\0\0\x0F\xFELAST");
    let inode = 512 * 4094;
    image[inode..inode + 512].fill(0);
    image[inode..inode + 8].copy_from_slice(&[0, 0, 2, 0, 0, 0, 0x0F, 0xFF]);
    formatted.holding(&image)
}

#[test]
fn block_4095_is_used() {
    for length in LENGTHS {
        let mut large = with_last_blocks(length);
        assert_eq!(large.ask(Request::TfsCheck, 0, b""), Answer::default());
        assert_eq!(large.free(), 2_095_616 - 1024);
        let listed = large.ask(Request::TfsList, 0, b"");
        assert_eq!(listed.words[..6], [0, 0, 1, 4094, 512, 4]);
        let written = large.transfer(Request::TfsWrite, 2, b"LAST", &[0x55; 600]);
        assert_eq!(written, Answer::of(&[0, 0, 510, 1]));
        assert!(large.pair.image()[MOST - 510..MOST] == [0x55; 510]);
        let read = large.transfer(Request::TfsRead, 2, b"LAST", &[0xAA; 600]);
        assert_eq!(read, Answer::of(&[0, 0, 510, 1]));
        assert_eq!(large.ask(Request::TfsRemove, 0, b"LAST"), Answer::default());
        assert_eq!(large.pair.image()[512 + 508], 0);
        assert_eq!(large.free(), 2_095_616);
    }
}

#[test]
fn block_4095_is_stored_and_mended() {
    for length in LENGTHS {
        let mut large = with_last_blocks(length);
        let mut numbers = |request, k| large.store(request, 2, b"LAST", k);
        assert_eq!(
            [1, 2].map(|k| numbers(Request::TfsWriteStore, k)),
            [4095, 0]
        );
        let removed = [1, 2, 3].map(|k| numbers(Request::TfsRemoveStore, k));
        assert_eq!(removed, [2, 1, 0]);
        assert_eq!(large.store(Request::TfsCreateStore, 65_024, b"A", 127), 130);
        assert_eq!(large.store(Request::TfsCreateStore, 65_024, b"A", 130), 2);
        let mut image = large.pair.image().to_vec();
        image[1024..1044].fill(0);
        let mut large = large.holding(&image);
        assert_eq!(large.ask(Request::TfsCheck, 0, b""), Answer::of(&[7, 4094]));
        assert_eq!(large.ask(Request::TfsMend, 0, b""), Answer::default());
        assert_eq!(large.pair.image()[512 + 508], 0);
        assert_eq!(large.free(), 2_095_616);
    }
}

#[test]
fn faults_at_block_4095_and_past_it() {
    let content = 512 * 4094 + 4;
    // The byte that is changed, what it becomes, and the refusal with its place.
    let faults = [
        (512 + 508, 0x40, 7, 4095),
        (512 + 508, 0x80, 7, 4094),
        (content + 3, 0xFE, 6, 4094),
        (content + 2, 0x10, 5, 0),
        (1024 + 2, 0x10, 4, 0),
    ];
    for length in LENGTHS {
        for (at, byte, number, place) in faults {
            let large = with_last_blocks(length);
            let mut image = large.pair.image().to_vec();
            image[at] = byte;
            let mut large = large.holding(&image);
            for request in [Request::TfsCheck, Request::TfsMend] {
                let refused = large.ask(request, 0, b"");
                assert_eq!(refused, Answer::of(&[number, place]), "{length} {at}");
            }
        }
    }
}

#[test]
fn the_largest_files_fill_3203_blocks() {
    let mut large = Large::formatted(512 * 3203);
    for number in 0..25 {
        let made = large.ask(Request::TfsCreate, 65_024, &[b'A' + number]);
        assert_eq!(made, Answer::of(&[0, 0, 3 + 128 * u64::from(number)]));
    }
    assert_eq!(large.free(), 0);
    assert_eq!(large.ask(Request::TfsCreate, 0, b"more").refusal(), 11);
    assert_eq!(large.ask(Request::TfsRemove, 0, b"C"), Answer::default());
    assert_eq!(large.free(), 65_536);
}

/// Stores and a mend on a long image, and a write of more bytes than 32 bits can count.
fn long_stores(image: &mut [u8]) {
    let mut block = [0xAA; 512];
    let stored = proved::tfs::create_store(image, b"B", 1_000, 3, &mut block);
    assert_eq!(stored, Ok(6));
    let stored = proved::tfs::remove_store(image, b"A", 2, &mut block);
    assert_eq!((stored, &block[..4]), (Ok(1), &[0, 0, 0, 7][..]));
    let bytes = vec![0; (1 << 32) + 600];
    let numbers = [1, 2, 3, (1 << 32) + 1].map(|k| {
        let stored = proved::tfs::write_store(image, b"A", 9, &bytes, k, &mut block);
        stored.unwrap_or(0)
    });
    assert_eq!(numbers, [4, 5, 0, 0]);
    image[516] = 1;
    assert_eq!(proved::tfs::mend(image), Ok(()));
    assert_eq!((image[516], proved::tfs::check(image)), (0, Ok(())));
}

/// A length that 32 bits cannot hold; its bytes are zeros that take no memory until they are used.
#[test]
fn images_longer_than_4_gib() {
    let mut image = vec![0; (1 << 32) + 1024];
    assert_eq!(proved::tfs::format(&mut image, b"LONG"), Ok(()));
    assert_eq!(proved::tfs::free_bytes(&image), Ok(2_095_616));
    assert_eq!(reference::tfs::free_bytes(&image), Ok(2_095_616));
    assert_eq!(proved::tfs::create(&mut image, b"A", 1_000), Ok(3));
    let mut buffer = [0x55; 1_100];
    let moved = |count, blocks| Ok(proved::tfs::Transferred { count, blocks });
    let written = proved::tfs::write(&mut image, b"A", 9, &buffer);
    assert_eq!(written, moved(991, 2));
    let read = proved::tfs::read(&image, b"A", 0, &mut buffer);
    assert_eq!(read, moved(1_000, 2));
    let mut theirs = [0x55; 1_100];
    let read = reference::tfs::read(&image, b"A", 0, &mut theirs);
    assert_eq!(read.map(|read| (read.count, read.blocks)), Ok((1_000, 2)));
    assert_eq!(theirs, buffer);

    long_stores(&mut image);
    let rom = tree_rom(3, 2, 5);
    image[..rom.image.len()].copy_from_slice(&rom.image);
    assert_eq!(proved::romfs::check(&image), Ok(()));
    let found = reference::romfs::find(&image, 0, b"d02");
    assert_eq!(proved::romfs::find(&image, 0, b"d02").ok(), found.ok());
}

/// Positions and lengths that 32 bits cannot hold.
#[test]
fn traces_longer_than_4_gib() {
    use proved::trace::{read, replay, write, Record, Replayed};
    const LONG: usize = 1 << 32;
    let mut trace = vec![0; LONG + 2];
    trace[..2].copy_from_slice(b"\x05\x07");
    trace[LONG..].copy_from_slice(b"\x05\x07");
    for at in [0, LONG] {
        assert_eq!(read(&trace, at).map(|(_, next)| next), Some(at + 2));
    }
    for at in [2, LONG - 1, LONG + 1, LONG + 2, LONG + 3, usize::MAX] {
        assert_eq!(read(&trace, at), None);
        assert_eq!(read(b"\x05\x07", at), None);
    }
    let mut image = vec![0; 5 * 512];
    proved::tfs::format(&mut image, b"LONG").expect("format");
    assert_eq!(replay(&mut image, &trace), Ok(Replayed::Differs(1)));
    trace[1] = 0;
    trace[2] = 0x80;
    trace[3] = 0x08;
    assert_eq!(replay(&mut image, &trace), Ok(Replayed::Malformed(2)));

    let mut record = Record::default();
    let mut out = [7; 40];
    for (kind, named) in [
        (1, true),
        (2, true),
        (3, true),
        (4, true),
        (3, false),
        (4, false),
    ] {
        record.entry.kind = kind;
        let parts: [&[u8]; 2] = [&trace[..LONG], b""];
        [record.name, record.bytes] = [parts[usize::from(!named)], parts[usize::from(named)]];
        assert_eq!(write(&mut out, &record).unwrap_err().number, 33);
        assert_eq!(out, [7; 40]);
    }
}
