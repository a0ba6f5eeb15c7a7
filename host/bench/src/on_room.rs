//! Times of counting the room of a volume.

use reference::tfs::{BLOCK_SIZE, LARGEST_FILE, MOST_BLOCKS};

use crate::less_check::{times, Way};
use crate::linked;
use crate::runs::LESS_CHECK;
use crate::table::Table;
use crate::volumes::{with_files, with_files_anywhere};

/// The way of the requests of a module.
macro_rules! requests {
    ($name:expr, $tfs:path) => {{
        use $tfs as tfs;
        Way {
            name: $name,
            request: Box::new(|image, _| tfs::free_bytes(image).expect("free bytes")),
            check: Some(|image| tfs::check(image).expect("check")),
        }
    }};
}

/// All ways, the proved one first.
fn ways() -> Vec<Way> {
    let ways = [
        #[cfg(not(before))]
        requests!("proved", proved::tfs),
        #[cfg(before)]
        requests!("proved", linked::now),
        #[cfg(before)]
        requests!("before", linked::before),
        requests!("reference", reference::tfs),
        Way {
            name: "C",
            request: Box::new(|image, _| free_bytes_in_c(image)),
            check: None,
        },
    ];
    ways.into()
}

/// Counts in C, with no check.
fn free_bytes_in_c(image: &[u8]) -> u32 {
    let (blocks, _) = image.as_chunks();
    let count = blocks.len().min(MOST_BLOCKS);
    BLOCK_SIZE as u32 * (count as u32 - linked::ones(&blocks[1], count))
}

/// Makes a volume with files of these sizes, from a seed.
type Make = fn(&[u32], u64) -> Vec<u8>;

/// Free bytes less the check, on volumes that differ in how many of their blocks are used and where these lie.
pub fn free_bytes(rounds: usize) -> Vec<Table> {
    let (half, full) = ([LARGEST_FILE; 16], [LARGEST_FILE; 25]);
    let solid = |sizes: &[u32], _| with_files(MOST_BLOCKS, sizes);
    let scattered = |sizes: &[u32], seed| with_files_anywhere(MOST_BLOCKS, sizes, seed);
    let rows: [(&str, &[u32], Make); 5] = [
        ("empty", &[], solid),
        ("half full, solid", &half, solid),
        ("half full, scattered", &half, scattered),
        ("full, solid", &full, solid),
        ("full, scattered", &full, scattered),
    ];
    let mut ways = ways();
    let lanes: Vec<&str> = ways.iter().map(|way| way.name).collect();
    let title = format!("TFS: free bytes {LESS_CHECK}, on volumes of 2 MiB");
    let mut table = Table::new(&title, &lanes);
    for (title, sizes, make) in rows {
        let times = times(rounds, &mut ways, |seed| make(sizes, seed));
        let times: Vec<f64> = times.iter().map(|times| times.less_check).collect();
        table.row(title, &times);
    }
    vec![table]
}
