use std::fmt;

use generate::cases::stored;
use generate::timing::is_on_file;
use generate::Random;
use reference::request::{Arguments, Request};

use crate::answer::Answer;
use crate::lent::{Lent, LentValues, Lents};

/// A program that answers requests.
pub type Side = fn(Request, &Arguments, &mut Lents) -> Answer;

/// Two programs, each with its own copy of one image.
#[derive(Clone)]
pub struct Pair {
    sides: [Side; 2],
    lents: [Lents; 2],
}

impl Pair {
    /// Gives both programs a copy of an image.
    pub fn new(random: &mut Random, sides: [Side; 2], image: &[u8]) -> Self {
        let lents = Lents {
            image: Lent::new(random, image),
            name: Lent::new(random, b""),
            buffer: Lent::new(random, b""),
            bytes: Lent::new(random, b""),
            values: LentValues::new(random, &Default::default()),
        };
        let lents = [lents.clone(), lents];
        Self { sides, lents }
    }

    /// Gives the image as it is now.
    pub fn image(&self) -> &[u8] {
        self.lents[1].image.bytes()
    }

    /// Gives the buffer as it is after the last request.
    pub fn buffer(&self) -> &[u8] {
        self.lents[1].buffer.bytes()
    }

    /// Makes a request on both sides and gives the answer if nothing differs.
    pub fn request(
        &mut self,
        random: &mut Random,
        request: Request,
        arguments: &Arguments,
    ) -> Result<Answer, Box<Difference>> {
        let name = Lent::new(random, &arguments.name);
        let buffer = Lent::new(random, &arguments.buffer);
        let bytes = Lent::new(random, &arguments.bytes);
        let values = LentValues::new(random, &arguments.timing.values);
        let answers = [0, 1].map(|side| {
            let lents = &mut self.lents[side];
            lents.name = name.clone();
            lents.buffer = buffer.clone();
            lents.bytes = bytes.clone();
            lents.values = values.clone();
            self.sides[side](request, arguments, lents)
        });
        let [ours, theirs] = &self.lents;
        let at = [
            ours.image.differs_at(&theirs.image),
            ours.name.differs_at(&theirs.name),
            ours.buffer.differs_at(&theirs.buffer),
            ours.bytes.differs_at(&theirs.bytes),
            ours.values.differs_at(&theirs.values),
        ];
        if answers[0] == answers[1] && at == [None; 5] {
            return Ok(answers[0]);
        }
        Err(Box::new(Difference {
            request,
            arguments: arguments.clone(),
            image_length: self.image().len(),
            answers,
            at,
            broken: None,
        }))
    }
}

/// A request that two programs answer differently, or in the same way against a promise.
#[derive(Clone, Debug)]
pub struct Difference {
    /// The request.
    pub request: Request,
    /// Its arguments.
    pub arguments: Arguments,
    /// The length of the image.
    pub image_length: usize,
    /// The answer of each side.
    pub answers: [Answer; 2],
    /// The first byte that differs in image, name, buffer and bytes, and the first value.
    pub at: [Option<isize>; 5],
    /// The promise that both break.
    pub broken: Option<&'static str>,
}

impl Difference {
    /// Tells the answers, and where what was lent differs.
    fn differing(&self, f: &mut fmt::Formatter<'_>) -> fmt::Result {
        for (side, answer) in ["proved", "reference"].iter().zip(&self.answers) {
            writeln!(f, "  {side}: {:?}, name {:?}", answer.words, answer.name)?;
            if self.request == Request::TimingBoot {
                writeln!(f, "    values {:?}", answer.values)?;
            }
        }
        let lent = ["image", "name", "buffer", "bytes", "values"];
        for (what, at) in lent.iter().zip(self.at) {
            if let Some(at) = at {
                writeln!(f, "  first difference in the {what}: at {at}")?;
            }
        }
        Ok(())
    }
}

impl fmt::Display for Difference {
    fn fmt(&self, f: &mut fmt::Formatter<'_>) -> fmt::Result {
        let Arguments {
            number,
            name,
            buffer,
            k,
            bytes,
            entry,
            timing,
        } = &self.arguments;
        writeln!(
            f,
            "{:?} on an image of {} bytes",
            self.request, self.image_length
        )?;
        writeln!(
            f,
            "  number {number}, name {name:?}, buffer of {} bytes",
            buffer.len()
        )?;
        if self.request == Request::TraceWrite {
            writeln!(f, "  {entry:?}")?;
        }
        if stored(self.request).is_some() {
            writeln!(f, "  k {k}, {} bytes to be written", bytes.len())?;
        }
        if is_on_file(self.request) {
            writeln!(f, "  k {k}, {timing:?}")?;
        }
        self.differing(f)?;
        match self.broken {
            None => Ok(()),
            Some(broken) => writeln!(f, "  against a promise: {broken}"),
        }
    }
}
