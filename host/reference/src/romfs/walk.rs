//! The walk over all entries, which applies rules 26 to 28.

use super::header::Header;
use crate::Refusal;

const DEEPEST: usize = 8;

/// What is left of a list: the offset of its next header, or 0, and its bound.
#[derive(Clone, Copy)]
struct List {
    at: u32,
    bound: u32,
}

/// Visits an entry, then its list, then the next entry, and stops at the first fault.
pub(super) struct Walk<'a> {
    image: &'a [u8],
    lists: [List; DEEPEST],
    depth: usize,
}

impl<'a> Walk<'a> {
    /// Starts at the first header of the root list, or at 0 if that is empty.
    pub(super) fn new(image: &'a [u8], root: u32, full_size: u32) -> Self {
        let list = List {
            at: root,
            bound: full_size,
        };
        Self {
            image,
            lists: [list; DEEPEST],
            depth: 1,
        }
    }

    fn visit(&mut self, List { at, bound }: List) -> Result<Header<'a>, Refusal> {
        let header = Header::sound(self.image, at, bound).ok_or(Refusal::at(26, at))?;
        let next = header.next();
        if next != 0 && !(header.end..bound).contains(&next) {
            return Err(Refusal::at(27, at));
        }
        self.lists[self.depth - 1].at = next;
        let first = header.first();
        if first != 0 {
            let bound = if next == 0 { bound } else { next };
            if !first.is_multiple_of(16) || !(header.end..bound).contains(&first) {
                return Err(Refusal::at(27, at));
            }
            if self.depth == DEEPEST {
                return Err(Refusal::at(28, at));
            }
            self.lists[self.depth] = List { at: first, bound };
            self.depth += 1;
        }
        Ok(header)
    }
}

impl<'a> Iterator for Walk<'a> {
    type Item = Result<Header<'a>, Refusal>;

    fn next(&mut self) -> Option<Self::Item> {
        while self.depth > 0 {
            let list = self.lists[self.depth - 1];
            if list.at == 0 {
                self.depth -= 1;
                continue;
            }
            let visited = self.visit(list);
            if visited.is_err() {
                self.depth = 0;
            }
            return Some(visited);
        }
        None
    }
}
