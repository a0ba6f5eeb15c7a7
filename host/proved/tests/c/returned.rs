//! A struct that is returned through memory is written wholly, and nothing around it.
//!
//! By the System V ABI the caller passes the address of the answer before the arguments. The
//! functions are declared so here, with painted memory around the answer.

use proved::c;

mod raw {
    extern "C" {
        pub fn tfs_list(to: *mut u8, image: *const u8, length: usize, slot: u32) -> *mut u8;
        pub fn tfs_trace_read(to: *mut u8, trace: *const u8, length: usize, at: usize) -> *mut u8;
        pub fn tfs_replay(
            to: *mut u8,
            image: *mut u8,
            image_length: usize,
            trace: *const u8,
            trace_length: usize,
        ) -> *mut u8;
        pub fn timing_boot(
            to: *mut u8,
            image: *const u8,
            length: usize,
            board: u32,
            maker: u32,
        ) -> *mut u8;
        pub fn romfs_entry(to: *mut u8, image: *const u8, length: usize, at: u32) -> *mut u8;
    }
}

/// Bytes around an answer, aligned as any struct here.
#[repr(C, align(64))]
struct Painted([u8; 512]);

/// Where the answer is put.
const AT: usize = 192;

/// Lets a request put its answer of so many bytes into memory of one paint; the answer.
fn on_paint(paint: u8, size: usize, request: &dyn Fn(*mut u8) -> *mut u8) -> Vec<u8> {
    let mut painted = Painted([paint; 512]);
    let to = painted.0[AT..].as_mut_ptr();
    assert_eq!(request(to), to);
    let around = painted.0[..AT].iter().chain(&painted.0[AT + size..]);
    assert_eq!(around.filter(|&&byte| byte != paint).count(), 0);
    painted.0[AT..AT + size].to_vec()
}

/// Fails where a byte of the answer depends on what stood there, or one outside of it changes.
fn written_wholly(size: usize, request: &dyn Fn(*mut u8) -> *mut u8) {
    assert!(size > 16, "returned in registers");
    assert_eq!(on_paint(0xA5, size, request), on_paint(0x5A, size, request));
}

/// A volume with the file A and a timing file for board 1 and maker 2.
fn volume() -> Vec<u8> {
    let mut image = vec![0; 16384];
    proved::tfs::format(&mut image, b"PUMP").expect("format");
    proved::tfs::create(&mut image, b"A", 5).expect("create");
    proved::timing::store(&mut image, 1, 2, &[7; 28]).expect("store");
    image
}

#[test]
fn of_a_slot_used_free_and_refused() {
    let image = volume();
    for slot in [0, 24, 25] {
        let list = |to| unsafe { raw::tfs_list(to, image.as_ptr(), image.len(), slot) };
        written_wholly(size_of::<c::tfs::Slot>(), &list);
    }
}

#[test]
fn of_a_boot_granted_and_refused() {
    let image = volume();
    for board in [1, 3] {
        let boot = |to| unsafe { raw::timing_boot(to, image.as_ptr(), image.len(), board, 2) };
        written_wholly(size_of::<c::timing::Booted>(), &boot);
    }
}

/// A trace of one record, free bytes of this number.
fn trace(value: u64) -> Vec<u8> {
    let entry = c::trace::Entry {
        kind: proved::trace::kind::FREE_BYTES,
        value,
        ..Default::default()
    };
    let mut out = vec![0; 64];
    let written = c::trace::write(&mut out, entry, b"", b"");
    out.truncate(written.length as usize);
    out
}

#[test]
fn of_a_record_and_of_none() {
    let trace = trace(300);
    for at in [0, trace.len()] {
        let read = |to| unsafe { raw::tfs_trace_read(to, trace.as_ptr(), trace.len(), at) };
        written_wholly(size_of::<c::trace::Record>(), &read);
    }
}

#[test]
fn of_a_replay_that_differs_and_a_refused_one() {
    let trace = trace(300);
    for image in [volume(), vec![0; 16384]] {
        let replay = |to| {
            let mut copy = image.clone();
            let (image, length) = (copy.as_mut_ptr(), copy.len());
            unsafe { raw::tfs_replay(to, image, length, trace.as_ptr(), trace.len()) }
        };
        written_wholly(size_of::<c::trace::Replayed>(), &replay);
    }
}

#[test]
fn of_a_romfs_entry_and_a_refused_one() {
    let rom: [&[u8]; 4] = [
        b"-rom1fs-\0\0\0\x40\x4B\x27\x1D\x26",
        b"V\0\0\0\0\0\0\0\0\0\0\0\0\0\0\0",
        b"\0\0\0\x02\0\0\0\0\0\0\0\0\x9E\xFF\xFF\xFE",
        b"a\0\0\0\0\0\0\0\0\0\0\0\0\0\0\0",
    ];
    let rom = rom.concat();
    assert_eq!(
        proved::romfs::entry(&rom, 32).map(|entry| entry.name_length),
        Ok(1)
    );
    for at in [32, 48] {
        let entry = |to| unsafe { raw::romfs_entry(to, rom.as_ptr(), rom.len(), at) };
        written_wholly(size_of::<c::romfs::Header>(), &entry);
    }
}
