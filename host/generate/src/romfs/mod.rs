//! romfs images: allowed ones, of random trees or of a plain form, and damaged ones.

mod builder;
mod faults;
mod forest;
mod grid;
mod large;
mod links;
mod tree;
mod words;

pub use builder::{Placed, Rom, RomBuilder};
pub use faults::{damage_rom, damage_rom_twice, scramble_rom};
pub use forest::forest_rom;
pub use grid::grid_rom;
pub use large::{flat_rom, tree_rom};
pub use links::{plain_rom, Family, FAMILIES};
pub use tree::{rom, RomPlan};
pub use words::seal_volume;
