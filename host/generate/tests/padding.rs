//! Padding of the map stands in a good part of the volumes, and requests ignore and keep it.

mod placed;

use std::collections::HashMap;

use generate::cases::tfs_arguments;
use generate::tfs::{any_volume, padding, put_padding, volume, Shape};
use generate::Random;
use placed::placed;
use reference::request::{run, Arguments, Request, CHECKING};

#[test]
fn volumes_have_padding_or_none() {
    let mut random = Random::new(27);
    for shape in [Shape::Scattered, Shape::Full, Shape::Lived, Shape::Empty] {
        // A number of blocks, and in how many ways padding may be set or not.
        for (blocks, ways) in [(40, 4), (64, 2), (127, 4), (128, 2)] {
            let mut met: HashMap<[bool; 2], usize> = HashMap::new();
            for _ in 0..200 {
                let made = volume(&mut random, shape, blocks);
                *met.entry(padding(&made.image, blocks)).or_default() += 1;
            }
            let enough = met.len() == ways && met.values().all(|count| *count > 10);
            assert!(enough, "{shape:?} {blocks} {met:?}");
        }
        let whole = volume(&mut random, shape, 4096);
        assert_eq!(padding(&whole.image, 4096), [false; 2]);
    }
}

/// The image with zeros in place of all padding, and the padding of each byte of the map.
fn parted(image: &[u8], blocks: usize) -> (Vec<u8>, Vec<u8>) {
    let mut cleared = image.to_vec();
    for block in blocks..4096 {
        cleared[512 + block / 32 * 4 + 3 - block % 32 / 8] &= !(1 << (block % 8));
    }
    let pairs = image[512..1024].iter().zip(&cleared[512..1024]);
    let padding = pairs.map(|(byte, cleared)| byte ^ cleared).collect();
    (cleared, padding)
}

/// Makes a request on two images that differ in padding only: it must have the same answer and the
/// same effect on both, and keep the padding of each. Tells whether it is granted.
fn ask(images: &mut [Vec<u8>; 2], blocks: usize, request: Request, arguments: &Arguments) -> bool {
    let [one, other] = images.each_mut().map(|image| {
        let (_, before) = parted(image, blocks);
        let mut buffer = arguments.buffer.clone();
        let answer = run(request, arguments, image, &mut buffer);
        let (placed, buffer) = placed(request, &answer, image, &buffer);
        let (cleared, after) = parted(&placed, blocks);
        assert_eq!(before, after);
        (answer, buffer, cleared)
    });
    assert!(one == other, "{request:?} {arguments:?}");
    one.0.is_ok()
}

#[test]
fn padding_is_ignored_and_kept() {
    let mut random = Random::new(28);
    let mut granted: HashMap<Request, usize> = HashMap::new();
    let mut differing = 0;
    for _ in 0..300 {
        let mut made = any_volume(&mut random, 140);
        let own = made.image.clone();
        put_padding(&mut random, &mut made);
        let mut images = [own, made.image.clone()];
        for _ in 0..30 {
            let request = random.pick(&CHECKING);
            let arguments = tfs_arguments(&mut random, &made, request);
            if ask(&mut images, made.blocks, request, &arguments) {
                *granted.entry(request).or_default() += 1;
            }
        }
        differing += usize::from(images[0] != images[1]);
    }
    assert!(differing > 200, "{differing}");
    let enough = |request: &Request| granted[request] > 100;
    assert!(CHECKING.iter().all(enough), "{granted:?}");
}
