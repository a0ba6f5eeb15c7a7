//! Requests made on both programs and counted, up to a number of them.

use generate::Random;
use reference::request::{Arguments, Request};

use crate::answer::Answer;
use crate::pair::{Difference, Pair, Side};
use crate::tally::Tally;

/// Why a sequence of requests ends before its time.
pub(crate) enum Stop {
    Enough,
    Differs(Box<Difference>),
}

/// What all sequences of requests share.
pub(crate) struct Comparison {
    /// What images and arguments are drawn from, set anew for each image.
    pub(crate) random: Random,
    /// The answers so far.
    pub(crate) tally: Tally,
    sides: [Side; 2],
    most: u64,
}

impl Comparison {
    /// Starts a comparison of two programs by so many requests at most.
    pub(crate) fn new(sides: [Side; 2], most: u64) -> Self {
        Self {
            random: Random::new(0),
            tally: Tally::default(),
            sides,
            most,
        }
    }

    /// Lends an image to both sides.
    pub(crate) fn pair(&mut self, image: &[u8]) -> Pair {
        Pair::new(&mut self.random, self.sides, image)
    }

    /// Makes a request and counts its answer.
    pub(crate) fn ask(
        &mut self,
        pair: &mut Pair,
        request: Request,
        arguments: &Arguments,
    ) -> Result<Answer, Stop> {
        if self.tally.requests() >= self.most {
            return Err(Stop::Enough);
        }
        match pair.request(&mut self.random, request, arguments) {
            Ok(answer) => {
                self.tally.count(request, &answer);
                Ok(answer)
            }
            Err(difference) => Err(Stop::Differs(difference)),
        }
    }

    /// Stops with a request that both sides have answered against a promise.
    pub(crate) fn broken(asked: Asked<'_>, broken: &'static str) -> Stop {
        let Asked {
            pair,
            request,
            arguments,
            answer,
        } = asked;
        Stop::Differs(Box::new(Difference {
            request,
            arguments: arguments.clone(),
            image_length: pair.image().len(),
            answers: [answer; 2],
            at: [None; 5],
            broken: Some(broken),
        }))
    }
}

/// A request that has been made, and its answer.
pub(crate) struct Asked<'a> {
    pub(crate) pair: &'a Pair,
    pub(crate) request: Request,
    pub(crate) arguments: &'a Arguments,
    pub(crate) answer: Answer,
}
