//! Cases in the course of being drawn.

use reference::request::{Arguments, Request};

use super::case::Case;
use crate::Random;

/// The cases drawn so far, and what the next ones are drawn from.
pub(super) struct Drawn {
    pub(super) random: Random,
    pub(super) cases: Vec<Case>,
    turn: usize,
}

impl Drawn {
    pub(super) fn new(seed: u64) -> Self {
        Self {
            random: Random::new(seed),
            cases: Vec::new(),
            turn: 0,
        }
    }

    /// Adds a case.
    pub(super) fn add(&mut self, request: Request, arguments: Arguments, image: &[u8]) {
        self.cases.push(Case::new(request, arguments, image));
    }

    /// Adds a request that has no arguments.
    pub(super) fn add_plain(&mut self, request: Request, image: &[u8]) {
        self.add(request, Arguments::default(), image);
    }

    /// Gives the request whose turn it is among several.
    pub(super) fn turn(&mut self, requests: &[Request]) -> Request {
        let request = requests[self.turn % requests.len()];
        self.turn += 1;
        request
    }
}
