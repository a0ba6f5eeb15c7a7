//! Times of requests, whole and less the check that has a part in them, at several places in memory.

use std::cell::RefCell;
use std::hint::black_box;

use reference::tfs::{BLOCK_SIZE, LARGEST_FILE, MOST_BLOCKS};

use crate::race::Race;
use crate::runs::{median, LESS_CHECK};
use crate::table::Table;

/// Gives a number for a volume, which may be changed but keeps its files and their sizes, and a buffer of [`ROOM`] bytes.
pub type Ask = dyn FnMut(&mut [u8], &mut [u8]) -> u32;

/// The buffer has room for the largest file, then for a block.
pub const ROOM: usize = LARGEST_FILE as usize + BLOCK_SIZE;

/// A way to an answer.
pub struct Way {
    /// What it is called in the tables.
    pub name: &'static str,
    /// The request.
    pub request: Box<Ask>,
    /// The check that has a part in it, if one has.
    pub check: Option<fn(&[u8])>,
}

/// The nanoseconds of a way.
pub struct Times {
    /// Of the best round.
    pub whole: f64,
    /// Less those of the check: the mean over all places of the median over the rounds there. One median over all would
    /// leap where the places are of two kinds.
    pub less_check: f64,
}

const PAGE: usize = 4096;

/// From a place in a page to the next one.
const STEP: usize = 520;

/// Where in a page a volume and the buffer begin, each time elsewhere, as the stack does: what a check takes depends on the
/// volume and on how it lies to the stack by more than a count lasts, and what a copy takes on both places, above all on which
/// are multiples of 16.
const PLACES: [(usize, usize); 8] = [
    (0, 0),
    (520, 1560),
    (1040, 3640),
    (1560, 2080),
    (2080, 1040),
    (2600, 520),
    (3120, 2600),
    (3640, 3120),
];

/// The times of all ways, which share a volume of 2 MiB at most, a buffer and the stack, at each place. Each volume is made from
/// another seed, which a volume in blocks one after another does not depend on; behind it there may be as much as the buffer holds.
pub fn times(rounds: usize, ways: &mut [Way], make: impl Fn(u64) -> Vec<u8>) -> Vec<Times> {
    let mut volumes = vec![0; MOST_BLOCKS * BLOCK_SIZE + ROOM + 2 * PAGE];
    let mut buffers = vec![0; ROOM + 2 * PAGE];
    let mut all = Vec::new();
    for (seed, (of_volume, of_buffer)) in (1..).zip(PLACES) {
        let made = make(seed);
        let image = at(&mut volumes, of_volume, made.len());
        image.copy_from_slice(&made);
        let buffer = at(&mut buffers, of_buffer, ROOM);
        buffer.fill(0x5A);
        assert_same_answers(ways, image, buffer);
        let rounds = rounds.div_ceil(PLACES.len());
        below(of_volume / STEP, &mut || {
            all.push(timed(rounds, ways, image, buffer));
        });
    }
    let lanes = (0..ways.len()).map(|way| lane(&all, way));
    lanes.collect()
}

/// Runs something below so many frames of the stack, each of a little more than a step.
fn below(frames: usize, run: &mut dyn FnMut()) {
    let frame = black_box([0_u8; STEP]);
    match frames {
        0 => run(),
        _ => below(frames - 1, run),
    }
    black_box(&frame);
}

/// So many bytes of a space from a place in a page on.
fn at(space: &mut [u8], place: usize, length: usize) -> &mut [u8] {
    let page = space.as_ptr().align_offset(PAGE);
    &mut space[page + place..][..length]
}

fn assert_same_answers(ways: &mut [Way], image: &mut [u8], buffer: &mut [u8]) {
    let answers = ways.iter_mut().map(|way| (way.request)(image, buffer));
    let answers: Vec<u32> = answers.collect();
    let same = answers.iter().all(|answer| *answer == answers[0]);
    assert!(same, "{answers:?}");
}

/// The time of each way and of its check, which is next to nothing where there is none, in every round.
fn timed(rounds: usize, ways: &mut [Way], image: &mut [u8], buffer: &mut [u8]) -> Vec<Vec<f64>> {
    let shared = &RefCell::new((image, buffer));
    let mut race = Race::new(rounds);
    for way in ways {
        let (request, check) = (&mut way.request, way.check);
        race = race.lane(move || {
            let (image, buffer) = &mut *shared.borrow_mut();
            request(black_box(image), black_box(buffer))
        });
        race = race.lane(move || check.map(|check| check(black_box(shared.borrow().0))));
    }
    race.run_rounds()
}

/// The times of one way in all rounds at all places.
fn lane(places: &[Vec<Vec<f64>>], way: usize) -> Times {
    let of = |round: &Vec<f64>| round.as_chunks::<2>().0[way];
    let whole = places.iter().flatten().map(|round| of(round)[0]);
    let less = |rounds: &Vec<Vec<f64>>| {
        let differences = rounds.iter().map(of).map(|[whole, check]| whole - check);
        median(&differences.collect::<Vec<f64>>())
    };
    Times {
        whole: whole.fold(f64::INFINITY, f64::min),
        less_check: places.iter().map(less).sum::<f64>() / places.len() as f64,
    }
}

/// Two tables of the same rows: whole times, and those less the check.
pub struct Tables {
    whole: Table,
    less: Table,
}

impl Tables {
    /// Starts them under a title.
    pub fn new(title: &str, lanes: &[&str]) -> Self {
        Self {
            whole: Table::new(title, lanes),
            less: Table::new(&format!("{title}, {LESS_CHECK}"), lanes),
        }
    }

    /// Adds a row with the times of each lane.
    pub fn row(&mut self, title: &str, times: &[Times]) {
        let whole: Vec<f64> = times.iter().map(|times| times.whole).collect();
        let less: Vec<f64> = times.iter().map(|times| times.less_check).collect();
        self.whole.row(title, &whole);
        self.less.row(title, &less);
    }

    /// Both.
    pub fn done(self) -> Vec<Table> {
        vec![self.whole, self.less]
    }
}

#[cfg(test)]
mod tests {
    use super::*;
    use std::collections::BTreeSet;
    use std::rc::Rc;

    #[test]
    fn all_ways_share_a_volume_and_a_buffer_at_each_place() {
        let met = Rc::new(RefCell::new(BTreeSet::new()));
        let stacks = Rc::new(RefCell::new(BTreeSet::new()));
        let both = || (met.clone(), stacks.clone());
        let mut ways = [both(), both()].map(|(met, stacks)| Way {
            name: "way",
            request: Box::new(move |image, buffer| {
                let places = (image.as_ptr().addr(), buffer.as_ptr().addr());
                met.borrow_mut().insert(places);
                let local = 0_u8;
                stacks.borrow_mut().insert((&raw const local).addr() % PAGE);
                0
            }),
            check: None,
        });
        times(1, &mut ways, |_| vec![0; BLOCK_SIZE]);
        assert!(stacks.take().len() >= PLACES.len());
        let met = met.take();
        assert_eq!(met.len(), PLACES.len());
        let within = met
            .iter()
            .map(|(image, buffer)| (image % PAGE, buffer % PAGE));
        assert_eq!(within.collect::<BTreeSet<_>>(), PLACES.into());
    }

    #[test]
    fn less_the_check_is_the_mean_over_the_places_of_their_medians() {
        let rounds =
            |differences: [f64; 3]| differences.map(|less| vec![0.0, 0.0, 9.0 + less, 9.0]);
        let places = [[1.0, 2.0, 90.0], [5.0, 4.0, 0.0]].map(|place| rounds(place).to_vec());
        let times = lane(&places, 1);
        assert_eq!((times.whole, times.less_check), (9.0, 3.0));
    }

    #[test]
    fn volume_and_buffer_begin_at_multiples_of_16_in_every_combination() {
        let aligned = PLACES.map(|(volume, buffer)| (volume % 16 == 0, buffer % 16 == 0));
        assert_eq!(BTreeSet::from(aligned).len(), 4);
    }
}
