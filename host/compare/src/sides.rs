//! The two programs behind one form of request: a request and its arguments on lent bytes.

use proved::c;
use reference::request::{self, Arguments, Granted, Request};
use reference::timing::{self, Timing};
use reference::trace::Entry;
use reference::{romfs, Refusal};

use crate::answer::Answer;
use crate::lent::Lents;

/// The outcome of a replay that the check refuses.
const REPLAY_REFUSED: u64 = 3;

/// Answers with the proved library.
pub fn proved(request: Request, arguments: &Arguments, lents: &mut Lents) -> Answer {
    let Arguments { number, k, .. } = *arguments;
    let image = lents.image.bytes_mut();
    let name = lents.name.bytes();
    let buffer = lents.buffer.bytes_mut();
    let bytes = lents.bytes.bytes();
    match request {
        Request::TfsCheck => tfs_answer(c::tfs::check(image)),
        Request::TfsFormat => tfs_answer(c::tfs::format(image, name)),
        Request::TfsCreate => tfs_answer(c::tfs::create(image, name, number)),
        Request::TfsRemove => tfs_answer(c::tfs::remove(image, name)),
        Request::TfsRead => tfs_answer(c::tfs::read(image, name, number, buffer)),
        Request::TfsWrite => tfs_answer(c::tfs::write(image, name, number, buffer)),
        Request::TfsList => slot_answer(c::tfs::list(image, number)),
        Request::TfsFree => tfs_answer(c::tfs::free_bytes(image)),
        Request::TfsCreateStore => tfs_answer(c::tfs::create_store(image, name, number, k, buffer)),
        Request::TfsRemoveStore => tfs_answer(c::tfs::remove_store(image, name, k, buffer)),
        Request::TfsWriteStore => {
            tfs_answer(c::tfs::write_store(image, name, number, bytes, k, buffer))
        }
        Request::TfsMend => tfs_answer(c::tfs::mend(image)),
        Request::TfsReplay => replay_answer(c::trace::replay(image, buffer)),
        Request::TraceRead => record_answer(c::trace::read(buffer, number as usize)),
        Request::TraceWrite => {
            let written = c::trace::write(image, entry(&arguments.entry), name, buffer);
            Answer::of(&[written.refusal, 0, written.length])
        }
        Request::RomCheck => rom_answer(c::romfs::check(image)),
        Request::RomFind => rom_answer(c::romfs::find(image, number, name)),
        Request::RomEntry => entry_answer(c::romfs::entry(image, number)),
        Request::RomLength | Request::RomContent => part_answer(c::romfs::content(image, number)),
        _ => on_timing_file(request, arguments, lents),
    }
}

/// The same for the timing file.
fn on_timing_file(request: Request, arguments: &Arguments, lents: &mut Lents) -> Answer {
    let Timing { board, maker, .. } = arguments.timing;
    let k = arguments.k;
    let image = lents.image.bytes_mut();
    let buffer = lents.buffer.bytes_mut();
    let values = lents.values.values();
    match request {
        Request::TimingStore => timing_answer(c::timing::store(image, board, maker, values)),
        Request::TimingOpenLid => timing_answer(c::timing::open_lid(image)),
        Request::TimingBoot => boot_answer(c::timing::boot(image, board, maker)),
        Request::TimingStoreBlock => timing_answer(c::timing::store_block(
            image, board, maker, values, k, buffer,
        )),
        _ => timing_answer(c::timing::open_lid_block(image, k, buffer)),
    }
}

fn tfs_answer(answer: c::tfs::Answer) -> Answer {
    let words = [answer.refusal, answer.place, answer.value, answer.blocks];
    Answer::of(&words.map(u64::from))
}

fn rom_answer(answer: c::romfs::Answer) -> Answer {
    let words = [answer.refusal, answer.place, answer.value];
    Answer::of(&words.map(u64::from))
}

fn replay_answer(replayed: c::trace::Replayed) -> Answer {
    Answer::of(&[
        replayed.refusal,
        replayed.place,
        replayed.outcome,
        replayed.number,
    ])
}

fn record_answer(record: c::trace::Record) -> Answer {
    let entry = record.entry;
    Answer::of(&[
        0,
        0,
        entry.kind,
        entry.size,
        entry.offset,
        entry.length,
        entry.refusal,
        entry.value,
        record.name_at,
        record.name_length,
        record.bytes_at,
        record.bytes_length,
        record.next,
    ])
}

fn entry(entry: &Entry) -> c::trace::Entry {
    c::trace::Entry {
        kind: entry.kind,
        size: entry.size,
        offset: entry.offset,
        length: entry.length,
        refusal: entry.refusal,
        value: entry.value,
    }
}

fn slot_answer(slot: c::tfs::Slot) -> Answer {
    let words = [
        slot.refusal,
        slot.place,
        slot.used,
        slot.inode,
        slot.size,
        slot.name_length,
    ];
    Answer::of(&words.map(u64::from)).named(&slot.name)
}

fn entry_answer(entry: c::romfs::Header) -> Answer {
    let words = [
        entry.refusal,
        entry.place,
        entry.file_type,
        entry.executable,
        entry.info,
        entry.size,
        entry.next,
        entry.name_length,
    ];
    Answer::of(&words.map(u64::from))
}

fn part_answer(part: c::romfs::Part) -> Answer {
    let words = [part.refusal, part.place, part.offset, part.length];
    Answer::of(&words.map(u64::from))
}

fn timing_answer(answer: c::timing::Answer) -> Answer {
    let words = [answer.refusal, answer.place, answer.value];
    Answer::of(&words.map(u64::from))
}

fn boot_answer(booted: c::timing::Booted) -> Answer {
    let words = [booted.refusal, booted.place];
    Answer::of(&words.map(u64::from)).valued(booted.values)
}

/// Answers with the reference, in the form that the C interface owes.
pub fn reference(request: Request, arguments: &Arguments, lents: &mut Lents) -> Answer {
    let image = lents.image.bytes_mut();
    let answer = match request {
        Request::RomLength | Request::RomContent => content(image, arguments.number),
        Request::TimingBoot => return booted(image, &arguments.timing),
        _ => request::run(request, arguments, image, lents.buffer.bytes_mut()).map(granted),
    };
    answer.unwrap_or_else(|Refusal { number, place }| {
        let outcome = match request {
            Request::TfsReplay => REPLAY_REFUSED,
            _ => 0,
        };
        Answer::of(&[number.into(), place.into(), outcome])
    })
}

/// The numbers of a result, and the name of a listed file with its length.
fn granted((values, name): Granted) -> Answer {
    let mut words = vec![0, 0];
    words.extend(values.into_iter().map(u64::from));
    if !name.is_empty() {
        words.push(name.len() as u64);
    }
    Answer::of(&words).named(&name)
}

/// A refused boot has values too.
fn booted(image: &[u8], given: &Timing) -> Answer {
    let booted = timing::boot(image, given.board, given.maker);
    let Refusal { number, place } = booted.answer.err().unwrap_or(Refusal::plain(0));
    Answer::of(&[number.into(), place.into()]).valued(booted.values)
}

/// The offset is that of the part itself, so that the same bytes are meant and not equal ones.
fn content(image: &[u8], at: u32) -> Result<Answer, Refusal> {
    let length = romfs::content_length(image, at)?;
    let part = romfs::content(image, at);
    let offset = part.as_ptr() as usize - image.as_ptr() as usize;
    Ok(Answer::of(&[0, 0, offset as u64, length.into()]))
}
