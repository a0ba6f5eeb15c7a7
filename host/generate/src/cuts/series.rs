//! A granted change as its stores, and what is promised of every cut of them.

use reference::request::run;
use reference::tfs::BLOCK_SIZE;
use reference::timing::VALUES;
use reference::Refusal;

use super::change::Change;
use super::standing::{contents, file, Contents, Standing};
use crate::timing::{self, held, values_for};
use crate::Random;

const MAP: u32 = 1;
const DIRECTORY: u32 = 2;

/// A store: the number of a block, and its bytes.
pub type Store = (u32, Vec<u8>);

/// A granted change, the image before and after it, and its stores.
#[derive(Clone, Debug)]
pub struct Series {
    /// The change.
    pub change: Change,
    /// The image before the change, which is consistent.
    pub old: Vec<u8>,
    /// The image after the change.
    pub new: Vec<u8>,
    /// The stores in their order.
    pub stores: Vec<Store>,
}

/// What is not as it is promised.
type Broken = &'static str;

fn promise(kept: bool, broken: Broken) -> Result<(), Broken> {
    match kept {
        true => Ok(()),
        false => Err(broken),
    }
}

fn block(image: &[u8], number: usize) -> &[u8] {
    &image[BLOCK_SIZE * number..][..BLOCK_SIZE]
}

impl Series {
    /// The series that the reference gives for a change that is granted.
    pub fn of_reference(random: &mut Random, change: Change, old: &[u8]) -> Self {
        let mut new = old.to_vec();
        let (request, arguments) = change.whole();
        let mut bytes = arguments.buffer.clone();
        let granted = run(request, &arguments, &mut new, &mut bytes);
        assert!(granted.is_ok(), "{change:?}: {granted:?}");
        let mut stores = Vec::new();
        loop {
            let (request, arguments) = change.store(random, stores.len() + 1);
            let mut buffer = arguments.buffer.clone();
            let mut image = old.to_vec();
            match run(request, &arguments, &mut image, &mut buffer) {
                Ok((values, _)) => stores.push((values[0], buffer[..BLOCK_SIZE].to_vec())),
                Err(refusal) => {
                    assert_eq!(refusal, Refusal::plain(32));
                    break;
                }
            }
        }
        Self {
            change,
            old: old.to_vec(),
            new,
            stores,
        }
    }

    /// The image after so many of the stores.
    pub fn cut(&self, made: usize) -> Vec<u8> {
        let mut image = self.old.clone();
        for (number, bytes) in &self.stores[..made] {
            image[BLOCK_SIZE * *number as usize..][..BLOCK_SIZE].copy_from_slice(bytes);
        }
        image
    }

    /// The numbers of the blocks that the rules list for the change, in their order; nothing where
    /// its file does not stand.
    fn listed(&self) -> Option<Vec<u32>> {
        Some(match &self.change {
            Change::Create(name, _) => {
                let made = file(&self.new, name)?;
                [&made.blocks[..], &[made.inode, MAP, DIRECTORY]].concat()
            }
            Change::Remove(_) => vec![DIRECTORY, MAP],
            Change::Write(name, offset, bytes) => {
                let written = file(&self.old, name)?;
                let start = *offset as usize;
                let end = (start + bytes.len()).min(written.size as usize);
                let met = |index: &usize| {
                    let block = BLOCK_SIZE * index..BLOCK_SIZE * (index + 1);
                    start < end && start < block.end && block.start < end
                };
                let met = (0..written.blocks.len()).filter(met);
                met.map(|index| written.blocks[index]).collect()
            }
            Change::Store(_) if self.creates_timing() => {
                let made = file(&self.new, timing::NAME)?;
                let content = *made.blocks.first()?;
                vec![content, made.inode, MAP, DIRECTORY, content]
            }
            Change::Store(_) | Change::OpenLid => file(&self.old, timing::NAME)?.blocks,
        })
    }

    /// Tells whether the change is a store that makes the timing file.
    fn creates_timing(&self) -> bool {
        let store = matches!(self.change, Change::Store(_));
        store && file(&self.old, timing::NAME).is_none()
    }

    /// Tells whether the stores are those that the rules list, each block once, but for the content of
    /// a timing file that is made, and all together the request: so that each, but for the first
    /// of that content, is its block as it is after the request.
    pub fn is_whole(&self) -> Result<(), Broken> {
        let mut numbers: Vec<u32> = self.stores.iter().map(|(number, _)| *number).collect();
        let listed = self.listed().as_ref() == Some(&numbers);
        promise(
            listed,
            "the stores are others than listed, or in another order",
        )?;
        let count = numbers.len();
        numbers.sort();
        numbers.dedup();
        let again = usize::from(self.creates_timing());
        promise(numbers.len() + again == count, "a block is stored twice")?;
        let whole = self.cut(count) == self.new;
        promise(
            whole,
            "all stores together are another image than the request's",
        )
    }

    /// Tells whether an image that is cut after so many stores, and its check, are as promised.
    pub fn holds(&self, made: usize, cut: &[u8], check: Option<Refusal>) -> Result<(), Broken> {
        let only_map = check.is_none_or(|refusal| refusal.number == 7);
        promise(only_map, "a rule is broken other than that of the map")?;
        let standing = Standing::of(cut);
        let owed = standing.stray().map(|place| Refusal::at(7, place as u32));
        promise(
            standing.missing().is_none(),
            "a claimed block is not set in the map",
        )?;
        promise(
            check == owed,
            "the check answers another than the first stray bit",
        )?;
        match self.owed(made) {
            Some(owed) => promise(
                standing.contents == owed,
                "names, sizes or contents are not as promised",
            ),
            None => {
                promise(check.is_none(), "a write that is cut breaks a rule")?;
                promise(
                    self.is_old_or_new(made, cut),
                    "a block is neither old nor new",
                )
            }
        }
    }

    /// The names and contents after so many stores of a change of the directory; nothing for a write.
    fn owed(&self, made: usize) -> Option<Contents> {
        let last = self.stores.len();
        let new = match &self.change {
            Change::Create(..) => made == last,
            Change::Remove(_) => made > 0,
            Change::Store(_) if self.creates_timing() => {
                // The file stands from the last but one store on, with zeros up to the last.
                let mut owed = contents(if made + 1 < last {
                    &self.old
                } else {
                    &self.new
                });
                let zeros = owed.get_mut(timing::NAME).filter(|_| made < last);
                zeros.into_iter().for_each(|content| content.fill(0));
                return Some(owed);
            }
            Change::Write(..) | Change::Store(_) | Change::OpenLid => return None,
        };
        Some(contents(if new { &self.new } else { &self.old }))
    }

    /// Numbers to boot with after a cut: those that the timing file holds before the change and after
    /// it, both mixed, and 0.
    pub fn boot_numbers(&self) -> Vec<(u32, u32)> {
        let held = [&self.old, &self.new].map(|image| held(image).unwrap_or_default());
        let boards = [held[0].board, held[1].board, 0];
        let makers = [held[0].maker, held[1].maker, 0];
        let both = |board: u32| makers.map(|maker| (board, maker));
        let mut boots: Vec<(u32, u32)> = boards.into_iter().flat_map(both).collect();
        boots.sort();
        boots.dedup();
        boots
    }

    /// Tells whether a boot of a volume that is cut after so many stores and mended gets what it is
    /// owed: the values from before the change, those from after it, or none.
    pub fn boots(
        &self,
        made: usize,
        (board, maker): (u32, u32),
        values: Option<[u16; VALUES]>,
    ) -> Result<(), Broken> {
        let owed = match made {
            0 => values_for(&self.old, board, maker),
            _ if made == self.stores.len() => values_for(&self.new, board, maker),
            _ => None,
        };
        promise(
            values == owed,
            "a boot gets others than the old values, the new ones or none",
        )
    }

    /// Tells whether the blocks of the first stores are new and all other bytes old.
    fn is_old_or_new(&self, made: usize, cut: &[u8]) -> bool {
        let stored = |index: usize| {
            let stores = &self.stores[..made];
            stores.iter().any(|(number, _)| *number as usize == index)
        };
        let old = self.old.chunks(BLOCK_SIZE).zip(self.new.chunks(BLOCK_SIZE));
        cut.chunks(BLOCK_SIZE)
            .zip(old)
            .enumerate()
            .all(|(index, (cut, (old, new)))| cut == if stored(index) { new } else { old })
    }

    /// Tells whether an image that is cut and then mended, and its check, are as promised.
    pub fn mends(&self, cut: &[u8], mended: &[u8], check: Option<Refusal>) -> Result<(), Broken> {
        promise(check.is_none(), "a mended volume breaks a rule")?;
        let map = BLOCK_SIZE..2 * BLOCK_SIZE;
        let outside =
            cut[..map.start] == mended[..map.start] && cut[map.end..] == mended[map.end..];
        promise(outside, "a mend changes a byte outside the map")?;
        let kept = contents(cut) == contents(mended);
        promise(kept, "a mend changes names, sizes or contents")?;
        let is = |image: &[u8]| [1, 2].iter().all(|b| block(mended, *b) == block(image, *b));
        let known = is(&self.old) || is(&self.new);
        promise(
            known,
            "map and directory are neither those before nor those after",
        )
    }
}
