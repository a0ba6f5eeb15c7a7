//! The block that a granted store gives, put where it belongs.

use generate::cases::stored;
use reference::request::{Granted, Request};
use reference::Refusal;

/// A copy of the image with the block of a granted store in its place, and the buffer without it;
/// both as they are after any other request.
pub fn placed(
    request: Request,
    answer: &Result<Granted, Refusal>,
    image: &[u8],
    buffer: &[u8],
) -> (Vec<u8>, Vec<u8>) {
    let mut image = image.to_vec();
    let mut rest = buffer;
    if let (Some(_), Ok((values, _))) = (stored(request), answer) {
        let (block, behind) = buffer.split_at(512);
        image[512 * values[0] as usize..][..512].copy_from_slice(block);
        rest = behind;
    }
    (image, rest.to_vec())
}
