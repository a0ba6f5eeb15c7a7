//! Programs that answer a request on the timing file wrongly, made of the reference.

#![allow(dead_code)]

use compare::sides::reference;
use compare::{options, run, Answer, Lents, Side};
use generate::tfs::{File, Volume};
use generate::timing::{is_on_file, NAME};
use reference::request::{Arguments, Request};
use reference::tfs;

use crate::sought::found_in;

/// A request that the reference has answered.
pub struct Asked<'a> {
    pub arguments: &'a Arguments,
    pub lents: &'a mut Lents,
    /// The image before the request.
    pub before: &'a [u8],
    /// The right answer.
    pub answer: Answer,
}

impl Asked<'_> {
    /// Takes back what the request has changed in the image.
    pub fn restore(&mut self) {
        self.lents.image.bytes_mut().copy_from_slice(self.before);
    }

    /// Changes the block of the timing file that a granted request has left, told by the same block
    /// before the request.
    pub fn with_block(self, change: impl FnOnce(&mut [u8], &[u8])) -> Answer {
        if self.answer.refusal() == 0 {
            let image = self.lents.image.bytes_mut();
            let start = 512 * file(image).expect("the file").blocks[0] as usize;
            let block = start..start + 512;
            change(&mut image[block.clone()], &self.before[block]);
        }
        self.answer
    }

    /// Asks for another store of a request, into the buffer as it was given.
    pub fn again(&mut self, request: Request, k: usize) -> Answer {
        let buffer = self.lents.buffer.bytes_mut();
        buffer.copy_from_slice(&self.arguments.buffer);
        let arguments = Arguments {
            k,
            ..self.arguments.clone()
        };
        reference(request, &arguments, self.lents)
    }
}

/// Answers with the reference, but one request as a wrong program does.
pub fn answered(
    (request, wrong_request): (Request, Request),
    arguments: &Arguments,
    lents: &mut Lents,
    wrong: fn(Asked<'_>) -> Answer,
) -> Answer {
    let before = lents.image.bytes().to_vec();
    let answer = reference(request, arguments, lents);
    let asked = Asked {
        arguments,
        lents,
        before: &before,
        answer,
    };
    match request == wrong_request {
        true => wrong(asked),
        false => answer,
    }
}

/// The name of a wrong program, and the program, which answers one request wrongly.
#[macro_export]
macro_rules! wrong {
    ($request:ident, $wrong:expr) => {{
        let side: compare::Side = |request, arguments, lents| {
            let requests = (request, reference::request::Request::$request);
            $crate::timed::answered(requests, arguments, lents, $wrong)
        };
        (stringify!($wrong), side)
    }};
}

pub fn refused(number: u32) -> Answer {
    Answer::of(&[number.into()])
}

pub fn granted() -> Answer {
    Answer::default()
}

/// The timing file of an image, if the image is a consistent volume.
pub fn file(image: &[u8]) -> Option<File> {
    tfs::check(image).ok()?;
    let mut seen = Volume {
        image: Vec::new(),
        blocks: 3,
        files: Vec::new(),
        gone: Vec::new(),
    };
    seen.look(image);
    seen.files.into_iter().find(|file| file.name == NAME)
}

/// Finds each of several wrong programs, by a request on the timing file.
pub fn find(programs: &[(&str, Side)]) {
    for (what, side) in programs {
        let found = found_in(" --only tfs", *side);
        let request = found.difference.request;
        assert!(is_on_file(request), "{what}: {request:?}");
        assert!(found.image < 200, "{what} on image {} only", found.image);
    }
}

/// Compares a program with itself over images of these numbers, until some words tell that a promise
/// is broken: nothing else can tell that it is wrong.
fn broken(what: &str, side: Side, words: &str, numbers: impl Iterator<Item = u64>) {
    let told = |image: u64| {
        let options = format!("--seed 1 --image {image} --only tfs");
        let options = options.split(' ').map(str::to_owned);
        let limits = options::parse(options).expect("options");
        let found = run(limits, [side, side]).1;
        found.is_some_and(|found| {
            let told = found.difference.to_string();
            told.contains("against a promise: ") && told.contains(words)
        })
    };
    let mut numbers = numbers;
    assert!(numbers.any(told), "{what}: {words}");
}

/// The same over lists of requests, which stand on images of even numbers.
pub fn broken_in_history((what, side): (&str, Side), words: &str) {
    broken(what, side, words, (0..400).step_by(2));
}

/// The same over cuts, which have every fourth image from 1 on.
pub fn broken_by_cut((what, side): (&str, Side), words: &str) {
    broken(what, side, words, (1..400).step_by(4));
}
