//! Requests on a volume that is known to be consistent: the same answers, without a check.

use super::directory::{create_in, free_bytes_in, remove_in};
use super::transfer::{reads_in, write_in};
use super::volume::known;
use crate::Refusal;

pub(crate) fn create(image: &mut [u8], name: &[u8], size: u32) -> Result<u32, Refusal> {
    create_in(known, image, name, size)
}

pub(crate) fn remove(image: &mut [u8], name: &[u8]) -> Result<(), Refusal> {
    remove_in(known, image, name)
}

/// Tells whether a read into a buffer of some length would give exactly these bytes.
pub(crate) fn reads(
    image: &[u8],
    name: &[u8],
    offset: u32,
    length: u32,
    bytes: &[u8],
) -> Result<bool, Refusal> {
    reads_in(known, image, name, offset, length, bytes)
}

/// Gives the count alone, which is what a trace holds of a write.
pub(crate) fn write(
    image: &mut [u8],
    name: &[u8],
    offset: u32,
    bytes: &[u8],
) -> Result<u32, Refusal> {
    write_in(known, image, name, offset, bytes).map(|written| written.count)
}

pub(crate) fn free_bytes(image: &[u8]) -> Result<u32, Refusal> {
    free_bytes_in(known, image)
}
