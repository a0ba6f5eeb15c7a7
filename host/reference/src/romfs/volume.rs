//! The check of an image, and the view of an image that has passed it.

use super::header::{name_extent, sum, word, FileType, Header};
use super::walk::Walk;
use crate::Refusal;

/// An image cut to its full size.
#[derive(Clone, Copy)]
pub(super) struct Rom<'a> {
    image: &'a [u8],
    root: u32,
}

impl<'a> Rom<'a> {
    pub(super) fn checked(image: &'a [u8]) -> Result<Self, Refusal> {
        let rom = Self::label(image)?;
        let mut linked = false;
        for header in rom.walk() {
            linked |= header?.points_elsewhere();
        }
        if linked {
            rom.check_links()?;
        }
        Ok(rom)
    }

    /// Rules 21 to 25.
    fn label(image: &'a [u8]) -> Result<Self, Refusal> {
        if image.len() < 32 {
            return Err(Refusal::plain(21));
        }
        if !image.starts_with(b"-rom1fs-") {
            return Err(Refusal::plain(22));
        }
        let full_size = word(image, 8) as usize;
        if !(32..=image.len()).contains(&full_size) || !full_size.is_multiple_of(16) {
            return Err(Refusal::plain(23));
        }
        let image = &image[..full_size];
        if sum(&image[..full_size.min(512)]) != 0 {
            return Err(Refusal::plain(24));
        }
        let (_, padded) = name_extent(&image[16..]).ok_or(Refusal::plain(25))?;
        let behind = 16 + padded;
        let root = if behind == full_size {
            0
        } else {
            behind as u32
        };
        Ok(Self { image, root })
    }

    /// Rule 29; the walk goes through rising offsets, so the first fault is the lowest.
    fn check_links(&self) -> Result<(), Refusal> {
        for header in self.walk() {
            let header = header?;
            let target = || self.reached(header.info);
            let sound = match header.file_type() {
                FileType::HardLink => {
                    target().is_some_and(|other| other.file_type() != FileType::HardLink)
                }
                _ => !header.is_dot() || target().is_some(),
            };
            if !sound {
                return Err(Refusal::at(29, header.at));
            }
        }
        Ok(())
    }

    fn full_size(&self) -> u32 {
        self.image.len() as u32
    }

    fn walk(&self) -> Walk<'a> {
        Walk::new(self.image, self.root, self.full_size())
    }

    fn header(&self, at: u32) -> Option<Header<'a>> {
        Header::decode(self.image, at, self.full_size())
    }

    /// The first header of the root list, or 0.
    pub(super) fn root(&self) -> u32 {
        self.root
    }

    /// The header at an offset if the walk meets it there.
    ///
    /// All headers of an entry's list lie between the entry and its next, so at each entry
    /// only one way can lead to the offset.
    pub(super) fn reached(&self, target: u32) -> Option<Header<'a>> {
        let mut at = self.root;
        while at != 0 && at <= target {
            let header = self.header(at)?;
            if at == target {
                return Some(header);
            }
            let next = header.next();
            at = if next != 0 && next <= target {
                next
            } else {
                header.first()
            };
        }
        None
    }

    /// The entries of a list from a reached header on; none if that is 0.
    pub(super) fn list(self, first: u32) -> impl Iterator<Item = Header<'a>> {
        let follow = move |at: u32| if at == 0 { None } else { self.header(at) };
        std::iter::successors(follow(first), move |header| follow(header.next()))
    }

    pub(super) fn content(&self, header: &Header<'_>) -> &'a [u8] {
        let start = header.data as usize;
        &self.image[start..start + header.size as usize]
    }
}
