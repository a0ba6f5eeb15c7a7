//! Changes of volumes made store by store, and cut after every number of stores.

use std::ops::Range;

use generate::cuts::{Change, Series, Store};
use generate::tfs::{any_volume, volume, Shape, Volume};
use generate::Random;
use reference::request::{Arguments, Request};
use reference::tfs::BLOCK_SIZE;
use reference::timing::Timing;
use reference::Refusal;

use crate::answer::Answer;
use crate::comparison::{Asked, Comparison, Stop};
use crate::drawn_timings;
use crate::pair::Pair;

/// Draws a volume and cuts a create, a remove and a write on it, and two others for a store of the
/// timing file and an opening, as far as they have the room and the files for them.
pub(crate) fn on_next(comparison: &mut Comparison) -> Result<(), Stop> {
    let made = some_volume(&mut comparison.random);
    changes(comparison, &made, 0..3)?;
    for _ in 0..2 {
        let made = drawn_timings::any_image(&mut comparison.random);
        changes(comparison, &made, 3..5)?;
    }
    Ok(())
}

/// Cuts a change of each of these kinds.
fn changes(comparison: &mut Comparison, made: &Volume, kinds: Range<usize>) -> Result<(), Stop> {
    for kind in kinds {
        if let Some(change) = Change::draw(&mut comparison.random, made, kind) {
            let series = fetched(comparison, change, &made.image)?;
            cut_everywhere(comparison, &series, kind)?;
        }
    }
    Ok(())
}

/// Cuts a series of a kind after every number of stores.
fn cut_everywhere(comparison: &mut Comparison, series: &Series, kind: usize) -> Result<(), Stop> {
    for count in 0..=series.stores.len() {
        cut(comparison, series, count)?;
        comparison.tally.cut(kind);
    }
    Ok(())
}

/// A consistent volume, mostly a small one, at times one with room for the largest file, and seldom
/// one of the greatest size.
fn some_volume(random: &mut Random) -> Volume {
    match random.below(200) {
        0 => volume(random, Shape::Scattered, 4_096),
        1..=3 => {
            let shape = random.pick(&[Shape::Empty, Shape::Largest]);
            volume(random, shape, 132)
        }
        4..=19 => {
            let blocks = random.pick(&[31, 32, 33, 63, 64, 65]);
            volume(random, Shape::Scattered, blocks)
        }
        _ => any_volume(random, 60),
    }
}

/// Both programs on one image, whose answers are held to promises.
struct Turn<'a> {
    comparison: &'a mut Comparison,
    pair: Pair,
}

impl<'a> Turn<'a> {
    fn on(comparison: &'a mut Comparison, image: &[u8]) -> Self {
        let pair = comparison.pair(image);
        Self { comparison, pair }
    }

    /// Makes a request, whose answer and image must keep a promise.
    fn ask(
        &mut self,
        request: Request,
        arguments: &Arguments,
        kept: impl FnOnce(&Answer, &Pair) -> Result<(), &'static str>,
    ) -> Result<Answer, Stop> {
        let answer = self.comparison.ask(&mut self.pair, request, arguments)?;
        kept(&answer, &self.pair).map_err(|broken| {
            let asked = Asked {
                pair: &self.pair,
                request,
                arguments,
                answer,
            };
            Comparison::broken(asked, broken)
        })?;
        Ok(answer)
    }

    /// The same for a request without arguments.
    fn ask_plain(
        &mut self,
        request: Request,
        kept: impl FnOnce(&Answer, &Pair) -> Result<(), &'static str>,
    ) -> Result<Answer, Stop> {
        self.ask(request, &Arguments::default(), kept)
    }
}

fn refusal(answer: &Answer) -> Option<Refusal> {
    let place = answer.words[1] as u32;
    Some(Refusal::at(answer.refusal(), place)).filter(|refusal| refusal.number != 0)
}

fn granted(answer: &Answer, _: &Pair) -> Result<(), &'static str> {
    match answer.refusal() {
        0 => Ok(()),
        _ => Err("it is to be granted"),
    }
}

/// Fetches all stores of a change, and makes it.
fn fetched(comparison: &mut Comparison, change: Change, old: &[u8]) -> Result<Series, Stop> {
    let mut stores: Vec<Store> = Vec::new();
    let mut turn = Turn::on(comparison, old);
    loop {
        let k = stores.len() + 1;
        let (request, arguments) = change.store(&mut turn.comparison.random, k);
        let answer = turn.ask(request, &arguments, |answer, _| a_store(answer, k, old))?;
        if answer.refusal() != 0 {
            break;
        }
        stores.push((answer.value(), turn.pair.buffer()[..BLOCK_SIZE].to_vec()));
    }
    let (request, arguments) = change.whole();
    let mut series = Series {
        change,
        old: old.to_vec(),
        new: Vec::new(),
        stores,
    };
    turn.ask(request, &arguments, |answer, pair| {
        granted(answer, pair)?;
        series.new = pair.image().to_vec();
        series.is_whole()
    })?;
    Ok(series)
}

/// The number of stores of a create of the largest size; no request has more.
const MOST_STORES: usize = 130;

/// The k-th store of a granted change is a block of the volume, or refused with 32.
fn a_store(answer: &Answer, k: usize, image: &[u8]) -> Result<(), &'static str> {
    let end = BLOCK_SIZE * (answer.value() as usize + 1);
    match answer.refusal() {
        0 if k > MOST_STORES => Err("there are more stores than any request has"),
        0 if end > image.len() => Err("a store lies outside the volume"),
        0 | 32 => Ok(()),
        _ => Err("a store of a granted request is refused"),
    }
}

/// Cuts a series after so many stores, checks, mends, checks and mends again.
fn cut(comparison: &mut Comparison, series: &Series, count: usize) -> Result<(), Stop> {
    let cut = series.cut(count);
    let mut turn = Turn::on(comparison, &cut);
    turn.ask_plain(Request::TfsCheck, |answer, _| {
        series.holds(count, &cut, refusal(answer))
    })?;
    turn.ask_plain(Request::TfsMend, granted)?;
    let mended = turn.pair.image().to_vec();
    turn.ask_plain(Request::TfsCheck, |answer, _| {
        series.mends(&cut, &mended, refusal(answer))
    })?;
    turn.ask_plain(Request::TfsMend, |answer, pair| {
        granted(answer, pair)?;
        match pair.image() == mended {
            true => Ok(()),
            false => Err("a second mend changes the volume"),
        }
    })?;
    match series.change {
        Change::Store(_) | Change::OpenLid => boot(&mut turn, series, count),
        _ => Ok(()),
    }
}

/// Boots a volume that was cut after so many stores and mended, with numbers from before and after.
fn boot(turn: &mut Turn<'_>, series: &Series, count: usize) -> Result<(), Stop> {
    for (board, maker) in series.boot_numbers() {
        let timing = Timing {
            board,
            maker,
            ..Timing::default()
        };
        let arguments = Arguments {
            timing,
            ..Arguments::default()
        };
        turn.ask(Request::TimingBoot, &arguments, |answer, _| {
            let values = (answer.refusal() == 0).then_some(answer.values);
            series.boots(count, (board, maker), values)
        })?;
    }
    Ok(())
}
