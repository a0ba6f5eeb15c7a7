//! The rules of the timing file, with numbers worked out by hand.

use reference::tfs::{self, BLOCK_SIZE, LARGEST_FILE};
use reference::timing::{
    boot, open_lid, open_lid_block, store, store_block, Booted, Timing, VALUES,
};
use reference::Refusal;

const NAME: &[u8] = b"TIMING";

/// Board 01020304, maker 0A0B0C0D, and the values 8081, 8283 and so on.
fn trained() -> Timing {
    Timing {
        board: 0x0102_0304,
        maker: 0x0A0B_0C0D,
        values: std::array::from_fn(|index| 0x8081 + 0x0202 * index as u16),
    }
}

/// The 64 bytes of that file.
fn trained_bytes() -> Vec<u8> {
    let mut bytes = vec![1, 2, 3, 4, 10, 11, 12, 13];
    bytes.extend(0x80..0x80 + 56);
    bytes
}

/// An empty volume of so many blocks over old bytes.
fn volume(blocks: usize) -> Vec<u8> {
    let mut image = vec![0x5A; blocks * BLOCK_SIZE + 100];
    tfs::format(&mut image, b"PUMP").unwrap();
    image
}

/// A volume with the file of this size, and its first bytes.
fn volume_with(size: u32, bytes: &[u8]) -> Vec<u8> {
    let mut image = volume(140);
    tfs::create(&mut image, NAME, size).unwrap();
    tfs::write(&mut image, NAME, 0, bytes).unwrap();
    image
}

fn content(image: &[u8]) -> Vec<u8> {
    let mut room = vec![0; 200];
    let count = tfs::read(image, NAME, 0, &mut room).unwrap().count;
    room.truncate(count as usize);
    room
}

fn refusal(number: u32) -> Result<(), Refusal> {
    Err(Refusal::plain(number))
}

/// Asserts that a store is refused and changes nothing.
#[track_caller]
fn store_refused(image: &[u8], timing: &Timing, number: u32) {
    let mut after = image.to_vec();
    assert_eq!(store(&mut after, timing), refusal(number));
    assert!(after == image);
    let mut room = [0xEE; 600];
    let block = store_block(image, timing, 0, &mut room);
    assert_eq!(block.map(drop), refusal(number));
    assert_eq!(room, [0xEE; 600]);
}

/// Asserts that an opening is refused and changes nothing.
#[track_caller]
fn opening_refused(image: &[u8], number: u32) {
    let mut after = image.to_vec();
    assert_eq!(open_lid(&mut after), refusal(number));
    assert!(after == image);
    let mut room = [0xEE; 600];
    let block = open_lid_block(image, 0, &mut room);
    assert_eq!(block.map(drop), refusal(number));
    assert_eq!(room, [0xEE; 600]);
}

/// Asserts that a boot with both numbers of a file is refused, and that its values are zeros.
#[track_caller]
fn boot_refused(image: &[u8], (board, maker): (u32, u32), number: u32) {
    let refused = Booted {
        answer: refusal(number),
        values: [0; VALUES],
    };
    assert_eq!(boot(image, board, maker), refused);
}

#[track_caller]
fn boots(image: &[u8], timing: &Timing) {
    let booted = Booted {
        answer: Ok(()),
        values: timing.values,
    };
    assert_eq!(boot(image, timing.board, timing.maker), booted);
}

const NUMBERS: (u32, u32) = (0x0102_0304, 0x0A0B_0C0D);

#[test]
fn a_store_makes_the_file() {
    let mut image = volume(8);
    let before = image.clone();
    store(&mut image, &trained()).unwrap();
    assert_eq!(content(&image), trained_bytes());
    // Inode 3 with content block 4: the directory, the map, the inode and the content.
    assert_eq!(image[512..516], [0, 0, 0, 0x1F]);
    assert_eq!(image[1024..1034], *b"\0\0\0\x03TIMING");
    assert_eq!(image[1536..1546], [0, 0, 0, 64, 0, 0, 0, 4, 0, 0]);
    assert_eq!(image[2048..2112], trained_bytes());
    assert!(image[2112..2560].iter().all(|byte| *byte == 0));
    assert!(image[2560..] == before[2560..]);
    boots(&image, &trained());
}

#[test]
fn a_store_onto_the_file_changes_only_its_bytes() {
    let mut image = volume_with(64, &[0xC3; 64]);
    image[2048 + 64..2048 + 512].fill(0x77);
    let before = image.clone();
    store(&mut image, &trained()).unwrap();
    assert!(image[..2048] == before[..2048] && image[2112..] == before[2112..]);
    assert_eq!(image[2048..2112], trained_bytes());
    let other = Timing {
        board: u32::MAX,
        maker: 0,
        values: [u16::MAX; VALUES],
    };
    store(&mut image, &other).unwrap();
    boots(&image, &other);
    boot_refused(&image, NUMBERS, 36);
}

#[test]
fn an_opening_changes_the_board_number_alone() {
    let mut image = volume_with(64, &trained_bytes());
    let before = image.clone();
    // The second opening is granted too.
    for _ in 0..2 {
        assert_eq!(open_lid(&mut image), Ok(()));
        assert_eq!(image[2048..2052], [0; 4]);
        assert!(image[..2048] == before[..2048] && image[2052..] == before[2052..]);
        boot_refused(&image, NUMBERS, 34);
    }
    store(&mut image, &trained()).unwrap();
    assert!(image == before);
    boots(&image, &trained());
}

#[test]
fn a_store_refuses_board_0_before_all_but_the_check() {
    let none = Timing {
        board: 0,
        ..trained()
    };
    store_refused(&volume(8), &none, 34);
    store_refused(&volume_with(64, &trained_bytes()), &none, 34);
    store_refused(&volume_with(63, b""), &none, 34);
    store_refused(&volume(3), &none, 34);
    let mut damaged = volume(8);
    damaged[0] = 1;
    store_refused(&damaged, &none, 2);
    let maker_0 = Timing {
        maker: 0,
        ..trained()
    };
    let mut image = volume(8);
    store(&mut image, &maker_0).unwrap();
    boots(&image, &maker_0);
}

#[test]
fn other_sizes_are_refused() {
    for size in [0, 1, 63, 65, 128, 512, 576, LARGEST_FILE] {
        let image = volume_with(size, &trained_bytes());
        store_refused(&image, &trained(), 35);
        opening_refused(&image, 35);
        for numbers in [NUMBERS, (1, 1), (0, 0), (NUMBERS.0, 1)] {
            boot_refused(&image, numbers, 35);
        }
    }
}

#[test]
fn boots_are_refused_in_the_written_order() {
    let image = volume_with(64, &trained_bytes());
    boots(&image, &trained());
    let (board, maker) = NUMBERS;
    for numbers in [(board + 1, maker), (board + 1, maker + 1), (maker, board)] {
        boot_refused(&image, numbers, 36);
    }
    boot_refused(&image, (0, maker), 36);
    boot_refused(&image, (board, maker + 1), 37);
    boot_refused(&image, (board, 0), 37);
    boot_refused(&image, (board ^ 0x0100_0000, maker), 36);
    boot_refused(&image, (board, maker ^ 0x0100_0000), 37);
    let opened = volume_with(64, &[&[0; 4], &trained_bytes()[4..]].concat());
    for numbers in [(0, maker), (board, maker), (board, 0), (0, 0)] {
        boot_refused(&opened, numbers, 34);
    }
    boot_refused(&volume(8), NUMBERS, 13);
    boot_refused(&volume(8), (0, 0), 13);
}

#[test]
fn other_names_are_other_files() {
    let names: [&[u8]; 6] = [
        b"timing", b"Timing", b"TIMING ", b"TIMIN", b"TIMINGS", b" TIMING",
    ];
    let mut image = volume(40);
    for name in names {
        tfs::create(&mut image, name, 64).unwrap();
        tfs::write(&mut image, name, 0, &trained_bytes()).unwrap();
    }
    opening_refused(&image, 13);
    boot_refused(&image, NUMBERS, 13);
    let other = Timing {
        board: 7,
        ..trained()
    };
    store(&mut image, &other).unwrap();
    boots(&image, &other);
    open_lid(&mut image).unwrap();
    for name in names {
        let mut room = [0; 65];
        assert_eq!(tfs::read(&image, name, 0, &mut room).unwrap().count, 64);
        assert_eq!(room[..64], trained_bytes());
    }
}

#[test]
fn leftovers_behind_the_name_do_not_matter() {
    let mut image = volume_with(64, &trained_bytes());
    image[1024 + 4 + 7..1024 + 20].fill(b'S');
    boots(&image, &trained());
    assert_eq!(open_lid(&mut image), Ok(()));
    boot_refused(&image, NUMBERS, 34);
}

/// A volume with 25 other files of no bytes, and room for some blocks.
fn without_slot(room: usize) -> Vec<u8> {
    let mut image = volume(3 + 25 + room);
    for index in 0..25u8 {
        tfs::create(&mut image, &[b'A' + index], 0).unwrap();
    }
    image
}

#[test]
fn a_store_needs_a_slot_and_then_room_if_the_file_is_absent() {
    for room in [0, 1, 2, 9] {
        store_refused(&without_slot(room), &trained(), 11);
    }
    store_refused(&volume(3), &trained(), 12);
    store_refused(&volume(4), &trained(), 12);
    opening_refused(&volume(3), 13);
    // In exactly the room that is needed: an inode and a content block.
    let mut image = volume(5);
    store(&mut image, &trained()).unwrap();
    assert_eq!(tfs::free_bytes(&image), Ok(0));
    boots(&image, &trained());
    // The file stands: neither slot nor room is needed any more.
    let other = Timing {
        board: 5,
        ..trained()
    };
    store(&mut image, &other).unwrap();
    boots(&image, &other);
    let mut image = without_slot(2);
    tfs::remove(&mut image, b"K").unwrap();
    store(&mut image, &trained()).unwrap();
    store(&mut image, &other).unwrap();
    boots(&image, &other);
}

/// A volume with the file, struck by each rule of the check, and the fault.
fn damaged() -> Vec<(Vec<u8>, Refusal)> {
    let sound = volume_with(64, &trained_bytes());
    let with = |at: usize, bytes: &[u8]| {
        let mut image = sound.clone();
        image[at..at + bytes.len()].copy_from_slice(bytes);
        image
    };
    vec![
        (sound[..1535].to_vec(), Refusal::plain(1)),
        (with(3, &[0]), Refusal::plain(2)),
        (with(4, &[b'P'; 16]), Refusal::plain(3)),
        (with(1024 + 20, &[1]), Refusal::at(4, 1)),
        (with(1536, &[1]), Refusal::at(5, 0)),
        (with(1543, &[3]), Refusal::at(6, 3)),
        (with(515, &[0x3F]), Refusal::at(7, 5)),
    ]
}

#[test]
fn the_check_comes_first() {
    for (image, fault) in damaged() {
        assert_eq!(tfs::check(&image), Err(fault));
        let none = Timing {
            board: 0,
            ..trained()
        };
        for timing in [none, trained()] {
            let mut after = image.clone();
            assert_eq!(store(&mut after, &timing), Err(fault));
            assert_eq!(open_lid(&mut after), Err(fault));
            assert!(after == image);
            let mut room = [0xEE; 512];
            let block = store_block(&image, &timing, 0, &mut room);
            assert_eq!(block, Err(fault));
            assert_eq!(open_lid_block(&image, 0, &mut room), Err(fault));
            assert_eq!(room, [0xEE; 512]);
            let booted = boot(&image, timing.board, timing.maker);
            assert_eq!(booted.answer, Err(fault));
            assert_eq!(booted.values, [0; VALUES]);
        }
    }
}

/// All stores of a series, each with a byte behind it that stays; then 32.
fn series(fetch: impl Fn(usize, &mut [u8]) -> Result<u32, Refusal>) -> Vec<(u32, Vec<u8>)> {
    let mut stores = Vec::new();
    let end = loop {
        let mut room = [0xEE; 513];
        match fetch(stores.len() + 1, &mut room) {
            Ok(number) => stores.push((number, room[..512].to_vec())),
            Err(refusal) => break refusal,
        }
        assert_eq!(room[512], 0xEE);
    };
    assert_eq!(end, Refusal::plain(32));
    stores
}

#[test]
fn a_store_onto_the_file_is_one_block() {
    let mut image = volume_with(64, &[0xC3; 64]);
    image[2048 + 64..2048 + 512].fill(0x77);
    let stores = series(|k, room| store_block(&image, &trained(), k, room));
    let block = [&trained_bytes()[..], &[0x77; 448]].concat();
    assert_eq!(stores, [(4, block)]);
    // What stands already is stored too.
    store(&mut image, &trained()).unwrap();
    let again = series(|k, room| store_block(&image, &trained(), k, room));
    assert_eq!(again, stores);
}

#[test]
fn an_opening_is_one_block() {
    let mut image = volume_with(64, &trained_bytes());
    image[2048 + 64..2048 + 512].fill(0x77);
    let block = [&[0; 4], &trained_bytes()[4..], &[0x77; 448]].concat();
    for _ in 0..2 {
        let stores = series(|k, room| open_lid_block(&image, k, room));
        assert_eq!(stores, [(4, block.clone())]);
        open_lid(&mut image).unwrap();
    }
}

#[test]
fn a_store_that_creates_is_five_blocks() {
    let image = volume(8);
    let mut after = image.clone();
    store(&mut after, &trained()).unwrap();
    let block = |number: usize| after[512 * number..][..512].to_vec();
    let stores = series(|k, room| store_block(&image, &trained(), k, room));
    let content = [&trained_bytes()[..], &[0; 448]].concat();
    let expected = [
        (4, vec![0; 512]),
        (3, block(3)),
        (1, block(1)),
        (2, block(2)),
        (4, content),
    ];
    assert_eq!(stores, expected);
}

#[test]
fn no_such_store() {
    let absent = volume(8);
    let standing = volume_with(64, &trained_bytes());
    let far = [0, 1 << 32, (1 << 32) + 1, (1 << 32) + 5, usize::MAX];
    for k in far.into_iter().chain([2, 6]) {
        let mut room = [0xEE; 512];
        let blocks = [
            store_block(&standing, &trained(), k, &mut room),
            open_lid_block(&standing, k, &mut room),
        ];
        assert_eq!(blocks, [Err(Refusal::plain(32)); 2]);
        if k != 2 {
            let block = store_block(&absent, &trained(), k, &mut room);
            assert_eq!(block, Err(Refusal::plain(32)));
        }
        assert_eq!(room, [0xEE; 512]);
    }
    for k in 1..=5 {
        let mut room = [0xEE; 511];
        let block = store_block(&absent, &trained(), k, &mut room);
        assert_eq!(block, Err(Refusal::plain(32)));
        assert_eq!(open_lid_block(&standing, k, &mut room), block);
        assert_eq!(room, [0xEE; 511]);
    }
}
