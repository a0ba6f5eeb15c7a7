use std::fmt;

use reference::request::Request;

use crate::answer::Answer;

const REQUESTS: [(Request, &str); 24] = [
    (Request::TfsFormat, "format"),
    (Request::TfsCheck, "check"),
    (Request::TfsCreate, "create"),
    (Request::TfsRemove, "remove"),
    (Request::TfsRead, "read"),
    (Request::TfsWrite, "write"),
    (Request::TfsList, "list"),
    (Request::TfsFree, "free bytes"),
    (Request::TfsCreateStore, "store of create"),
    (Request::TfsRemoveStore, "store of remove"),
    (Request::TfsWriteStore, "store of write"),
    (Request::TfsMend, "mend"),
    (Request::TfsReplay, "replay"),
    (Request::TraceRead, "record read"),
    (Request::TraceWrite, "record written"),
    (Request::RomCheck, "romfs check"),
    (Request::RomFind, "find"),
    (Request::RomEntry, "entry"),
    (Request::RomContent, "content"),
    (Request::TimingStore, "timing store"),
    (Request::TimingOpenLid, "opening"),
    (Request::TimingBoot, "boot"),
    (Request::TimingStoreBlock, "block of timing store"),
    (Request::TimingOpenLidBlock, "block of opening"),
];

/// One more than the greatest number of a refusal.
const REFUSALS: usize = 38;

/// How often each request was granted, and given each refusal.
#[derive(Clone, Debug, PartialEq, Eq)]
pub struct Tally {
    /// By request and number of the refusal; 0 is granted.
    answers: [[u64; REFUSALS]; 32],
    /// How often a granted replay ended in each way: all, malformed, differs.
    ended: [u64; 3],
    /// How often a record of each kind was read; 0 is malformed.
    read: [u64; 6],
    /// How often a create, a remove, a write, a timing store and an opening were cut.
    cuts: [u64; 5],
}

impl Default for Tally {
    fn default() -> Self {
        Self {
            answers: [[0; REFUSALS]; 32],
            ended: [0; 3],
            read: [0; 6],
            cuts: [0; 5],
        }
    }
}

impl Tally {
    /// Counts an answer.
    pub fn count(&mut self, request: Request, answer: &Answer) {
        let value = answer.value() as usize;
        match (request, answer.refusal()) {
            (Request::TfsReplay, 0) => self.ended[value] += 1,
            (Request::TraceRead, 0) => self.read[value] += 1,
            _ => {}
        }
        self.answers[request as usize][answer.refusal() as usize] += 1;
    }

    /// Counts a cut of a create (0), a remove (1), a write (2), a timing store (3) or an opening (4).
    pub fn cut(&mut self, kind: usize) {
        self.cuts[kind] += 1;
    }

    /// Gives how often a create (0), a remove (1), a write (2), a timing store (3) or an opening (4)
    /// was cut.
    pub fn cuts(&self, kind: usize) -> u64 {
        self.cuts[kind]
    }

    /// Gives how often a granted replay ended with an outcome.
    pub fn ended(&self, outcome: usize) -> u64 {
        self.ended[outcome]
    }

    /// Gives how often a record of a kind was read; 0 is malformed.
    pub fn read(&self, kind: usize) -> u64 {
        self.read[kind]
    }

    /// Gives the number of requests.
    pub fn requests(&self) -> u64 {
        self.answers.as_flattened().iter().sum()
    }

    /// Gives how often a request was granted.
    pub fn granted(&self, request: Request) -> u64 {
        self.refused(request, 0)
    }

    /// Gives how often a request was given a refusal.
    pub fn refused(&self, request: Request, number: u32) -> u64 {
        self.answers[request as usize][number as usize]
    }

    /// Gives how often a refusal was given.
    pub fn seen(&self, number: u32) -> u64 {
        let of_request = |answers: &[u64; REFUSALS]| answers[number as usize];
        self.answers.iter().map(of_request).sum()
    }
}

impl fmt::Display for Tally {
    fn fmt(&self, f: &mut fmt::Formatter<'_>) -> fmt::Result {
        write!(
            f,
            "{} requests, {} granted; granted+refused:",
            self.requests(),
            self.seen(0)
        )?;
        for (request, name) in REQUESTS {
            let granted = self.granted(request);
            let all: u64 = self.answers[request as usize].iter().sum();
            write!(f, " {name} {granted}+{}", all - granted)?;
        }
        write!(f, "; refusals:")?;
        for number in (1..=15).chain(21..=37) {
            write!(f, " {number}:{}", self.seen(number))?;
        }
        let [all, malformed, differs] = self.ended;
        write!(
            f,
            "; replayed: all {all}, malformed {malformed}, differs {differs}"
        )?;
        write!(f, "; records read malformed: {}", self.read[0])?;
        let [create, remove, write, store, opening] = self.cuts;
        write!(
            f,
            "; cuts: {} (create {create}, remove {remove}, write {write}, timing store {store}, \
             opening {opening})",
            self.cuts.iter().sum::<u64>()
        )
    }
}
