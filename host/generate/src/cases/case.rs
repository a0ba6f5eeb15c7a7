//! A request on an image, and the answer of the reference to it.

use reference::request::{run, Arguments, Granted, Request};
use reference::{timing, Refusal};

/// What is expected of a request.
#[derive(Clone, Debug, PartialEq, Eq)]
pub struct Answer {
    /// The number of the refusal, or 0 if granted.
    pub number: u32,
    /// The place of the refusal.
    pub place: u32,
    /// The numbers of the result, none if refused.
    pub values: Vec<u32>,
    /// The name or content of the result.
    pub text: Vec<u8>,
    /// The FNV-1a hash of the image and then the buffer as they are after the request.
    pub hash: u64,
}

/// A request on an image and the answer owed to it.
#[derive(Clone, Debug, PartialEq, Eq)]
pub struct Case {
    /// The request.
    pub request: Request,
    /// Its arguments.
    pub arguments: Arguments,
    /// The image as it is before the request.
    pub image: Vec<u8>,
    /// The expected answer.
    pub answer: Answer,
}

impl Case {
    /// Makes a case by running the request on a copy of the image.
    pub fn new(request: Request, arguments: Arguments, image: &[u8]) -> Self {
        let mut after = image.to_vec();
        let mut buffer = arguments.buffer.clone();
        let result = answered(request, &arguments, &mut after, &mut buffer);
        let hash = fnv1a(after.iter().chain(&buffer));
        let answer = match result {
            Ok((values, text)) => Answer {
                number: 0,
                place: 0,
                values,
                text,
                hash,
            },
            Err(Refusal { number, place }) => Answer {
                number,
                place,
                values: Vec::new(),
                text: Vec::new(),
                hash,
            },
        };
        Self {
            request,
            arguments,
            image: image.to_vec(),
            answer,
        }
    }
}

/// Makes a request; a boot puts its values, two bytes each, in the place of the buffer.
fn answered(
    request: Request,
    arguments: &Arguments,
    image: &mut [u8],
    buffer: &mut Vec<u8>,
) -> Result<Granted, Refusal> {
    if request != Request::TimingBoot {
        return run(request, arguments, image, buffer);
    }
    let booted = timing::boot(image, arguments.timing.board, arguments.timing.maker);
    *buffer = booted.values.map(u16::to_be_bytes).concat();
    booted.answer.map(|()| Granted::default())
}

/// Gives the 64-bit FNV-1a hash of bytes.
pub fn fnv1a<'a>(bytes: impl IntoIterator<Item = &'a u8>) -> u64 {
    bytes.into_iter().fold(0xCBF2_9CE4_8422_2325, |hash, byte| {
        (hash ^ u64::from(*byte)).wrapping_mul(0x0000_0100_0000_01B3)
    })
}
