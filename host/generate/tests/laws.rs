//! Round trips and laws over random requests on generated volumes.

use std::collections::{BTreeMap, HashMap, HashSet};
use std::mem::discriminant;

use generate::tfs::{any_volume, has_leftovers, Volume};
use generate::Random;
use reference::tfs::{check, create, free_bytes, list, read, remove, write, Listing, Transferred};

type Files = BTreeMap<Vec<u8>, Vec<u8>>;

fn files(image: &[u8]) -> Files {
    (0..25)
        .filter_map(|slot| match list(image, slot) {
            Ok(Listing::Used { name, size, .. }) => {
                let mut content = vec![0; size as usize];
                let count = read(image, name, 0, &mut content).map(|read| read.count);
                assert_eq!(count, Ok(size));
                Some((name.to_vec(), content))
            }
            _ => None,
        })
        .collect()
}

fn rounds(seed: u64, count: usize, mut law: impl FnMut(&mut Random, Volume)) {
    let mut random = Random::new(seed);
    for _ in 0..count {
        let most = random.pick(&[8, 24, 140]);
        let made = any_volume(&mut random, most);
        law(&mut random, made);
    }
}

/// The name of a file of the volume, mostly, or one that no file has.
fn name_in(random: &mut Random, made: &Volume) -> Vec<u8> {
    let names: Vec<&[u8]> = made.files.iter().map(|file| &file.name[..]).collect();
    match random.choose(&names) {
        Some(name) if !random.one_in(8) => name.to_vec(),
        _ => random.pick(&[&b""[..], b"none of them", b"A\0"]).to_vec(),
    }
}

/// A name of the model, or any short name.
fn some_name(random: &mut Random, model: &Files) -> Vec<u8> {
    let length = random.between(1, 3);
    match model.keys().nth(random.below(model.len() + 1)) {
        Some(name) => name.clone(),
        None => random.name(length),
    }
}

/// Creates in the image and, if granted, in the model.
fn create_in_both(random: &mut Random, image: &mut [u8], model: &mut Files, name: Vec<u8>) -> bool {
    let size = random.below(2000);
    let made = create(image, &name, size as u32);
    if let Ok(inode) = made {
        let listed = Listing::Used {
            name: &name,
            inode,
            size: size as u32,
        };
        assert!((0..25).any(|slot| list(image, slot) == Ok(listed)));
        assert!(model.insert(name, vec![0; size]).is_none());
    }
    made.is_ok()
}

/// Removes from the image and from the model.
fn remove_in_both(image: &mut [u8], model: &mut Files, name: &[u8]) -> bool {
    let removed = remove(image, name);
    assert_eq!(removed.is_ok(), model.remove(name).is_some());
    removed.is_ok()
}

/// What is owed to a read or a write of a name, or the number of its refusal.
fn owed(model: &Files, name: &[u8], offset: usize, length: usize) -> Result<Transferred, u32> {
    let content = model.get(name).ok_or(13u32)?;
    let behind = content.len().checked_sub(offset).ok_or(15u32)?;
    let count = length.min(behind);
    let blocks: HashSet<usize> = (offset..offset + count).map(|at| at / 512).collect();
    Ok(Transferred {
        count: count as u32,
        blocks: blocks.len() as u32,
    })
}

/// Writes to the image and, if granted, to the model.
fn write_in_both(random: &mut Random, image: &mut [u8], model: &mut Files, name: &[u8]) -> bool {
    let length = random.below(1500);
    let bytes = random.bytes(length);
    let offset = random.below(1500);
    let owed = owed(model, name, offset, length);
    let written = write(image, name, offset as u32, &bytes);
    assert_eq!(written.map_err(|refusal| refusal.number), owed);
    if let Ok(owed) = owed {
        let (content, count) = (model.get_mut(name).unwrap(), owed.count as usize);
        content[offset..offset + count].copy_from_slice(&bytes[..count]);
    }
    written.is_ok()
}

/// Reads from the image what the model holds; the rest of the buffer stays.
fn read_from_both(random: &mut Random, image: &[u8], model: &Files, name: &[u8]) -> bool {
    let length = random.below(1500);
    let mut buffer = random.bytes(length);
    let mut expected = buffer.clone();
    let offset = random.below(1500);
    let owed = owed(model, name, offset, length);
    if let Ok(owed) = owed {
        let count = owed.count as usize;
        expected[..count].copy_from_slice(&model[name][offset..offset + count]);
    }
    let answer = read(image, name, offset as u32, &mut buffer);
    assert_eq!(answer.map_err(|refusal| refusal.number), owed);
    assert_eq!(buffer, expected);
    answer.is_ok()
}

/// The image is consistent, holds the files of the model, and has the rest of its room free.
fn assert_holds(image: &[u8], blocks: usize, model: &Files) {
    assert_eq!(check(image), Ok(()));
    assert_eq!(files(image), *model);
    let owned_by = |content: &Vec<u8>| 1 + content.len().div_ceil(512);
    let owned: usize = model.values().map(owned_by).sum();
    assert_eq!(free_bytes(image), Ok(512 * (blocks - 3 - owned) as u32));
}

#[test]
fn requests_have_their_effect_and_no_other() {
    rounds(21, 150, |random, made| {
        let mut image = made.image;
        let mut model = files(&image);
        for _ in 0..30 {
            let before = image.clone();
            let name = some_name(random, &model);
            let granted = match random.below(4) {
                0 => create_in_both(random, &mut image, &mut model, name),
                1 => remove_in_both(&mut image, &mut model, &name),
                2 => read_from_both(random, &image, &model, &name),
                _ => write_in_both(random, &mut image, &mut model, &name),
            };
            assert!(granted || image == before);
            assert_holds(&image, made.blocks, &model);
            assert_eq!(image[512 * made.blocks..], before[512 * made.blocks..]);
        }
    });
}

/// Inode number, size and name of each slot.
fn listed(image: &[u8]) -> Vec<Listing<'_>> {
    (0..25).map(|slot| list(image, slot).unwrap()).collect()
}

#[test]
fn create_then_remove_gives_map_and_names_back() {
    let (mut clean, mut left) = (0, 0);
    rounds(22, 1000, |random, made| {
        let mut image = made.image.clone();
        let length = random.between(1, 15);
        let name = random.name(length);
        let size = random.below(1500) as u32;
        if create(&mut image, &name, size).is_err() {
            assert_eq!(image, made.image);
            return;
        }
        let taken = |entry: &Listing| matches!(entry, Listing::Used { name: n, .. } if *n == name);
        let slot = listed(&image).iter().position(taken).unwrap();
        assert!(!has_leftovers(&image, slot));
        remove(&mut image, &name).unwrap();
        assert_eq!(listed(&image), listed(&made.image));
        let mut expected = made.image[..1536].to_vec();
        let bytes = &mut expected[1024 + 20 * slot..1044 + 20 * slot];
        let count = if *bytes == [0; 20] {
            &mut clean
        } else {
            &mut left
        };
        *count += 1;
        bytes.fill(0);
        assert_eq!(image[..1536], expected);
    });
    assert!(clean > 100 && left > 100, "{clean} {left}");
}

/// The count of a write, which is 0 where it is refused.
fn count_written(image: &mut [u8], name: &[u8], offset: u32, bytes: &[u8]) -> u32 {
    write(image, name, offset, bytes).map_or(0, |written| written.count)
}

#[test]
fn pieces_are_one_joined_write() {
    rounds(23, 400, |random, made| {
        let name = name_in(random, &made);
        let start = random.below(1600) as u32;
        let (mut cut, mut joined) = (made.image.clone(), made.image);
        let (mut offset, mut sum, mut whole) = (start, 0, Vec::new());
        for _ in 0..random.below(6) {
            let length = random.pick(&[0, 1, 100, 511, 512, 513, 700]);
            let piece = random.bytes(length);
            let count = count_written(&mut cut, &name, offset, &piece);
            offset += count;
            sum += count;
            whole.extend(piece);
        }
        assert_eq!(count_written(&mut joined, &name, start, &whole), sum);
        assert_eq!(cut, joined);
    });
}

#[test]
fn a_byte_is_what_the_last_write_put_there() {
    rounds(24, 200, |random, made| {
        let mut image = made.image.clone();
        let mut expected = made.image.clone();
        for _ in 0..random.below(12) {
            let name = name_in(random, &made);
            let offset = random.below(1600) as u32;
            let length = random.below(1200);
            let bytes = random.bytes(length);
            let answer = write(&mut image, &name, offset, &bytes);
            assert_eq!(
                answer,
                write(&mut made.image.clone(), &name, offset, &bytes)
            );
            let Ok(Transferred { count, .. }) = answer else {
                continue;
            };
            let file = made.files.iter().find(|file| file.name == name).unwrap();
            for (index, byte) in bytes[..count as usize].iter().enumerate() {
                let position = offset as usize + index;
                let block = file.blocks[position / 512] as usize;
                expected[512 * block + position % 512] = *byte;
            }
        }
        assert_eq!(image, expected);
    });
}

enum Step {
    Create(Vec<u8>, u32),
    Remove(Vec<u8>),
    Write(Vec<u8>, u32, Vec<u8>),
}

impl Step {
    /// A create of a new name, or a remove or a write of a name that stands.
    fn draw(random: &mut Random, kind: usize, new: &[u8], standing: Option<Vec<u8>>) -> Self {
        match (kind, standing) {
            (1, Some(name)) => Self::Remove(name),
            (2, Some(name)) => Self::Write(name, random.below(700) as u32, random.bytes(900)),
            _ => Self::Create(new.to_vec(), random.below(1500) as u32),
        }
    }

    fn run(&self, image: &mut [u8]) -> bool {
        match self {
            Self::Create(name, size) => create(image, name, *size).is_ok(),
            Self::Remove(name) => remove(image, name).is_ok(),
            Self::Write(name, offset, bytes) => write(image, name, *offset, bytes).is_ok(),
        }
    }
}

#[test]
fn two_steps_on_different_names_commute() {
    let mut granted = HashMap::new();
    rounds(25, 3000, |random, made| {
        let mut names: Vec<Vec<u8>> = made.files.iter().map(|file| file.name.clone()).collect();
        random.shuffle(&mut names);
        let mut step = |new| {
            let kind = random.below(3);
            Step::draw(random, kind, new, names.pop())
        };
        let (one, two) = (step(b"new one"), step(b"new two"));
        let (mut left, mut right) = (made.image.clone(), made.image.clone());
        let left_granted = one.run(&mut left) & two.run(&mut left);
        let right_granted = two.run(&mut right) & one.run(&mut right);
        if left_granted && right_granted {
            assert_eq!(files(&left), files(&right));
            let kinds = (discriminant(&one), discriminant(&two));
            *granted.entry(kinds).or_insert(0) += 1;
        }
    });
    assert_eq!(granted.len(), 9);
    assert!(granted.values().all(|count| *count > 20), "{granted:?}");
}
