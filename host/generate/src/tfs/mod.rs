//! TFS volumes: consistent ones with noise in all bytes that the rules ignore, and damaged ones.

mod faults;
mod leftovers;
mod lived;
mod made;
mod names;
mod padding;
mod sizes;
mod volume;

pub use faults::{
    damage_map, damage_slot, damage_volume, damage_volume_twice, scramble_volume, stray_beside,
    DamagedMap, MapFault, SlotFault,
};
pub use leftovers::{has_leftovers, leftovers, put_leftovers};
pub use made::{File, Volume};
pub(crate) use names::{change_case, not_allowed, similar};
pub use padding::{padding, put_padding};
pub(crate) use volume::set_bit;
pub use volume::{any_volume, volume, volume_with_files, Shape};
