//! What is drawn for the timing file: volumes, and its requests.

use generate::tfs::{volume, Shape, Volume};
use generate::timing::{put_file, said, some_timing, timing_arguments, timing_volume, NAME, SIZE};
use generate::Random;
use reference::request::{Arguments, Request};
use reference::tfs::{check, MOST_BLOCKS};
use reference::timing::Timing;

const REQUESTS: [Request; 13] = [
    Request::TimingStore,
    Request::TimingStore,
    Request::TimingStore,
    Request::TimingOpenLid,
    Request::TimingOpenLid,
    Request::TimingBoot,
    Request::TimingBoot,
    Request::TimingBoot,
    Request::TimingBoot,
    Request::TimingStoreBlock,
    Request::TimingStoreBlock,
    Request::TimingStoreBlock,
    Request::TimingOpenLidBlock,
];

/// A consistent volume, with a timing file or without, mostly a small one and seldom one of the
/// greatest size.
pub(crate) fn any_image(random: &mut Random) -> Volume {
    if !random.one_in(100) {
        return timing_volume(random, 140);
    }
    let mut made = volume(random, Shape::Scattered, MOST_BLOCKS);
    if random.one_in(2) {
        let bytes = some_timing(random, &[]).bytes();
        put_file(random, &mut made, NAME, SIZE, &bytes);
    }
    made
}

/// A request on the timing file, often with the numbers that stand in it, also if it has another size,
/// that stand in a file of its size, or that were stored last.
pub(crate) fn any_request(
    random: &mut Random,
    image: &[u8],
    last: Option<Timing>,
) -> (Request, Arguments) {
    let request = random.pick(&REQUESTS);
    let said = check(image).map_or(Vec::new(), |()| said(image));
    let known: Vec<Timing> = said.into_iter().chain(last).collect();
    (request, timing_arguments(random, request, &known))
}
