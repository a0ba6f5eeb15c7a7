//! Arguments of requests on romfs images.

use reference::request::{Arguments, Request};
use reference::romfs::{self, FileType};

use crate::romfs::{Placed, Rom};
use crate::Random;

/// Draws arguments for a request on an image, mostly good ones.
pub fn romfs_arguments(
    random: &mut Random,
    made: &Rom,
    image: &[u8],
    request: Request,
) -> Arguments {
    let content = matches!(request, Request::RomLength | Request::RomContent);
    let fits = |entry: &&Placed| match request {
        Request::RomFind => entry.file_type == FileType::Directory,
        _ => !content || entry.file_type.has_content(),
    };
    let mut offsets: Vec<u32> = made
        .entries
        .iter()
        .filter(fits)
        .map(|entry| entry.at)
        .collect();
    if request == Request::RomFind {
        offsets.push(0);
    }
    let number = match random.choose(&offsets) {
        Some(at) if random.below(5) > 0 => at,
        _ => wrong_offset(random, made),
    };
    let name = match request {
        Request::RomFind => name(random, made, image, number),
        _ => Vec::new(),
    };
    Arguments {
        number,
        name,
        ..Arguments::default()
    }
}

/// An offset that is mostly no header of the wanted type.
fn wrong_offset(random: &mut Random, made: &Rom) -> u32 {
    let any = random.below(made.image.len() + 1) as u32;
    let headers: Vec<u32> = made.entries.iter().map(|entry| entry.at).collect();
    let header = random.choose(&headers).unwrap_or(16);
    let offsets = [
        0,
        16,
        32,
        any,
        any & !15,
        header,
        header,
        header + 1,
        header + 16,
    ];
    let far = [made.full_size, made.full_size - 16, u32::MAX, 0xFFFF_FFF0];
    if random.one_in(4) {
        random.pick(&far)
    } else {
        random.pick(&offsets)
    }
}

/// A name that mostly stands in the list of a directory.
fn name(random: &mut Random, made: &Rom, image: &[u8], dir: u32) -> Vec<u8> {
    let names: Vec<&[u8]> = made.entries.iter().map(|entry| &entry.name[..]).collect();
    let present: Vec<&[u8]> = names
        .iter()
        .copied()
        .filter(|name| romfs::find(image, dir, name).is_ok())
        .collect();
    let some = random.choose(&names).unwrap_or(b"none");
    let mut name = random.choose(&present).unwrap_or(some).to_vec();
    match random.below(12) {
        0 => name.clear(),
        1 => name.push(0),
        2 => {
            name.pop();
        }
        3 => name.push(b'x'),
        4 => name = some.to_vec(),
        5 => name = random.name(16),
        _ => {}
    }
    name
}
