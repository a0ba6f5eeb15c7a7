//! Sequences of requests on TFS volumes.

use generate::cases::{store_arguments, stored, tfs_arguments, trace_arguments};
use generate::tfs::{put_leftovers, put_padding, Volume};
use generate::timing::{is_on_file, turn_to_file, values_for, Promise};
use reference::request::{Arguments, Request};
use reference::tfs::{check, BLOCK_SIZE};
use reference::timing::Timing;

use crate::answer::Answer;
use crate::comparison::{Asked, Comparison, Stop};
use crate::drawn_timings;
use crate::drawn_volumes::{any_image, damaged, twist};
use crate::pair::Pair;

const REQUESTS: [Request; 34] = [
    Request::TfsCreate,
    Request::TfsCreate,
    Request::TfsCreate,
    Request::TfsCreate,
    Request::TfsCreate,
    Request::TfsRemove,
    Request::TfsRemove,
    Request::TfsRemove,
    Request::TfsRead,
    Request::TfsRead,
    Request::TfsRead,
    Request::TfsRead,
    Request::TfsRead,
    Request::TfsWrite,
    Request::TfsWrite,
    Request::TfsWrite,
    Request::TfsWrite,
    Request::TfsWrite,
    Request::TfsList,
    Request::TfsList,
    Request::TfsFree,
    Request::TfsFree,
    Request::TfsReplay,
    Request::TfsReplay,
    Request::TfsReplay,
    Request::TfsCreateStore,
    Request::TfsCreateStore,
    Request::TfsRemoveStore,
    Request::TfsRemoveStore,
    Request::TfsWriteStore,
    Request::TfsWriteStore,
    Request::TfsMend,
    Request::TfsCheck,
    Request::TfsFormat,
];

/// Draws an image and makes a sequence of requests on it; the first is free bytes. Of one in three
/// about half of the requests are on the timing file.
pub(crate) fn on_next(comparison: &mut Comparison) -> Result<(), Stop> {
    let timed = comparison.random.one_in(3);
    let made = match timed {
        true if !comparison.random.one_in(6) => drawn_timings::any_image(&mut comparison.random),
        _ => any_image(&mut comparison.random),
    };
    let large = made.blocks > 500;
    let count = if large {
        16
    } else {
        comparison.random.between(20, 80)
    };
    let mut history = History::new(comparison, made, timed);
    history.make(Request::TfsFree, &Arguments::default())?;
    for _ in 0..count {
        history.step()?;
        if history.comparison.random.one_in(if large { 24 } else { 6 }) {
            history.aside()?;
        }
        if history.comparison.random.one_in(24) {
            history.leave();
        }
    }
    Ok(())
}

/// A volume in the course of requests.
struct History<'a> {
    comparison: &'a mut Comparison,
    pair: Pair,
    /// What stands in the volume, as far as requests were granted; its image is not kept up.
    made: Volume,
    /// Whether there are requests on the timing file.
    timed: bool,
    /// What the next boots are promised by the requests so far.
    promise: Promise,
    /// What was last stored in the timing file.
    last: Option<Timing>,
}

impl<'a> History<'a> {
    fn new(comparison: &'a mut Comparison, made: Volume, timed: bool) -> Self {
        let pair = comparison.pair(&made.image);
        Self {
            comparison,
            pair,
            made,
            timed,
            promise: Promise::default(),
            last: None,
        }
    }

    /// Makes one request, and now and then some that follow from its answer.
    fn step(&mut self) -> Result<(), Stop> {
        let (request, arguments) = self.request();
        let refusal = self.make(request, &arguments)?;
        let random = &mut self.comparison.random;
        match refusal {
            0 if request == Request::TfsRemove && random.one_in(3) => {
                self.use_again(&arguments.name)
            }
            0 if is_on_file(request) && random.one_in(3) => self.boot(),
            1..=7 if random.one_in(4) => {
                self.make(Request::TfsFormat, &Arguments::default())?;
                Ok(())
            }
            _ => Ok(()),
        }
    }

    /// Makes a request, holds a boot to what it is promised, takes note of what the request has
    /// changed and gives the number of its refusal.
    fn make(&mut self, request: Request, arguments: &Arguments) -> Result<u32, Stop> {
        let answer = self.comparison.ask(&mut self.pair, request, arguments)?;
        if request == Request::TimingBoot {
            self.hold(arguments, answer)?;
        }
        if answer.refusal() == 0 {
            self.promise = self.promise.after(request, arguments);
            self.note(request, arguments, &answer);
        }
        Ok(answer.refusal())
    }

    /// Holds the answer of a boot to the promise, and to what stands in the image.
    fn hold(&self, arguments: &Arguments, answer: Answer) -> Result<(), Stop> {
        let Timing { board, maker, .. } = arguments.timing;
        let granted = answer.refusal() == 0;
        let kept = self.promise.kept((board, maker), granted, &answer.values);
        let image = self.pair.image();
        let owed = check(image)
            .ok()
            .and_then(|()| values_for(image, board, maker));
        let read = match owed == granted.then_some(answer.values) {
            true => Ok(()),
            false => Err("a boot gets others than what the file holds for its numbers"),
        };
        kept.and(read).map_err(|broken| {
            let asked = Asked {
                pair: &self.pair,
                request: Request::TimingBoot,
                arguments,
                answer,
            };
            Comparison::broken(asked, broken)
        })
    }

    /// Boots with the numbers that were stored last, and with one of them alone.
    fn boot(&mut self) -> Result<(), Stop> {
        let Some(last) = self.last else {
            return Ok(());
        };
        let other = self.comparison.random.pick(&[0, 1, u32::MAX]);
        for (board, maker) in [
            (last.board, last.maker),
            (last.board, other),
            (other, last.maker),
        ] {
            let timing = Timing {
                board,
                maker,
                ..Timing::default()
            };
            let arguments = Arguments {
                timing,
                ..Arguments::default()
            };
            self.make(Request::TimingBoot, &arguments)?;
        }
        Ok(())
    }

    /// Uses the name of a removed file, also after another file may have taken its blocks, and
    /// when it stands again with another size.
    fn use_again(&mut self, name: &[u8]) -> Result<(), Stop> {
        for (request, other) in [
            (Request::TfsRead, false),
            (Request::TfsCreate, true),
            (Request::TfsWrite, false),
            (Request::TfsCreate, false),
            (Request::TfsWrite, false),
            (Request::TfsRead, false),
            (Request::TfsRead, false),
        ] {
            let random = &mut self.comparison.random;
            let mut arguments = tfs_arguments(random, &self.made, request);
            if !other {
                arguments.name = name.to_vec();
            }
            if request == Request::TfsCreate {
                arguments.number = random.below(1500) as u32;
            }
            self.make(request, &arguments)?;
        }
        Ok(())
    }

    /// Makes a few requests on a damaged copy, which is then not used again; the first is often a mend.
    fn aside(&mut self) -> Result<(), Stop> {
        self.made.image = self.pair.image().to_vec();
        if self.made.image.len() < 3 * BLOCK_SIZE {
            return Ok(());
        }
        let damaged = damaged(&mut self.comparison.random, &self.made);
        let mut pair = self.comparison.pair(&damaged);
        if self.comparison.random.one_in(2) {
            let arguments = Arguments::default();
            self.comparison
                .ask(&mut pair, Request::TfsMend, &arguments)?;
        }
        for _ in 0..self.comparison.random.between(1, 4) {
            let (request, arguments) = self.request();
            self.comparison.ask(&mut pair, request, &arguments)?;
        }
        Ok(())
    }

    /// Leaves bytes behind names and in free slots, and padding in the map, as another program might;
    /// requests go on then.
    fn leave(&mut self) {
        self.made.image = self.pair.image().to_vec();
        if self.made.image.len() >= 3 * BLOCK_SIZE {
            put_leftovers(&mut self.comparison.random, &mut self.made);
            put_padding(&mut self.comparison.random, &mut self.made);
            self.pair = self.comparison.pair(&self.made.image);
        }
    }

    /// A request of any kind; those by name are at times turned to the timing file.
    fn request(&mut self) -> (Request, Arguments) {
        let random = &mut self.comparison.random;
        if self.timed && random.one_in(2) {
            return drawn_timings::any_request(random, self.pair.image(), self.last);
        }
        let (request, mut arguments) = self.request_on_volume();
        if self.timed && self.comparison.random.one_in(5) {
            turn_to_file(&mut self.comparison.random, request, &mut arguments);
        }
        (request, arguments)
    }

    fn request_on_volume(&mut self) -> (Request, Arguments) {
        let random = &mut self.comparison.random;
        let mut request = random.pick(&REQUESTS);
        if request == Request::TfsFormat && !random.one_in(3) {
            request = Request::TfsCheck;
        }
        if request == Request::TfsReplay {
            self.made.image = self.pair.image().to_vec();
            let arguments = trace_arguments(random, &self.made);
            return (request, arguments);
        }
        if let Some(whole) = stored(request).filter(|_| random.one_in(4)) {
            let mut arguments = tfs_arguments(random, &self.made, whole);
            twist(random, whole, &mut arguments);
            let arguments = store_arguments(random, &self.made, request, arguments);
            return (request, arguments);
        }
        let mut arguments = tfs_arguments(random, &self.made, request);
        twist(random, request, &mut arguments);
        (request, arguments)
    }

    fn note(&mut self, request: Request, arguments: &Arguments, answer: &Answer) {
        let Arguments { number, name, .. } = arguments;
        match request {
            Request::TfsFormat => self.made.formatted(),
            Request::TfsRemove => self.made.removed(name),
            Request::TfsReplay => self.made.look(self.pair.image()),
            Request::TimingStore => {
                self.last = Some(arguments.timing);
                self.made.look(self.pair.image());
            }
            Request::TfsCreate => {
                let image = self.pair.image();
                self.made.created(image, name, answer.value(), *number);
            }
            _ => {}
        }
    }
}
