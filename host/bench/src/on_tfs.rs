//! Times of the TFS requests.

use std::hint::black_box;

use reference::tfs::{self as reference_tfs, LARGEST_FILE, MOST_BLOCKS, SLOTS};

use crate::race::Race;
use crate::table::{digits, Table, BOTH};
use crate::volumes::{empty, plain, with_files, with_files_anywhere, LEFTOVERS};

/// Times an operation of both programs, each on its own copy of an image.
fn both<T, U>(
    rounds: usize,
    image: &[u8],
    proved: impl Fn(&mut [u8]) -> T,
    reference: impl Fn(&mut [u8]) -> U,
) -> Vec<f64> {
    let (mut ours, mut theirs) = (image.to_vec(), image.to_vec());
    Race::new(rounds)
        .lane(move || proved(black_box(&mut ours)))
        .lane(move || reference(black_box(&mut theirs)))
        .run()
}

/// Creates a file and removes it, or the other way round where every slot is used.
macro_rules! create_and_remove {
    ($tfs:path, $size:expr, $full:expr) => {
        move |image: &mut [u8]| {
            use $tfs as tfs;
            let name: &[u8] = if $full { b"F24" } else { b"NEW" };
            if $full {
                tfs::remove(image, name).expect("remove");
            }
            black_box(tfs::create(image, name, $size).expect("create"));
            if !$full {
                tfs::remove(image, name).expect("remove");
            }
        }
    };
}

/// The requests that move no content, on volumes of 2 MiB.
pub fn requests(rounds: usize) -> Vec<Table> {
    let mut table = Table::new("TFS: a volume of 2 MiB", &BOTH);
    for (title, image) in plain() {
        let full = title.starts_with("25");
        let mut row = |request: &str, times: Vec<f64>| {
            table.row(&format!("{request}, {title}"), &times);
        };
        row("check", check(rounds, &image));
        row("free bytes", free_bytes(rounds, &image));
        row("list slot 7", list(rounds, &image));
        for size in [1_000, LARGEST_FILE] {
            let times = both(
                rounds,
                &image,
                create_and_remove!(proved::tfs, size, full),
                create_and_remove!(reference_tfs, size, full),
            );
            row(
                &format!("create and remove {} bytes", digits(size.into())),
                times,
            );
        }
    }
    let scattered = with_files_anywhere(MOST_BLOCKS, &[LARGEST_FILE; SLOTS], 1);
    let times = check(rounds, &scattered);
    table.row("check, 25 largest files, scattered", &times);
    let times = check(rounds, &(LEFTOVERS.make)(1));
    table.row(&format!("check, {}", LEFTOVERS.title), &times);
    vec![table]
}

/// Times a request of both programs that is given nothing but an image.
macro_rules! plain_request {
    ($request:ident) => {
        fn $request(rounds: usize, image: &[u8]) -> Vec<f64> {
            both(
                rounds,
                image,
                |image| proved::tfs::$request(image).expect("granted"),
                |image| reference_tfs::$request(image).expect("granted"),
            )
        }
    };
}

plain_request!(check);
plain_request!(free_bytes);

fn list(rounds: usize, image: &[u8]) -> Vec<f64> {
    both(
        rounds,
        image,
        |image| proved::c::tfs::list(image, 7),
        |image| reference_tfs::list(image, 7).is_ok(),
    )
}

/// How the check grows with the number of blocks and of files.
pub fn growth(rounds: usize) -> Vec<Table> {
    let mut blocks = Table::new("TFS: check of an empty volume, by blocks", &BOTH);
    for count in [64, 256, 1024, MOST_BLOCKS] {
        let times = check(rounds, &empty(count));
        blocks.row(&digits(count as f64), &times);
    }
    vec![blocks, files(rounds, 1_000), files(rounds, LARGEST_FILE)]
}

/// The check by the number of files of a size.
fn files(rounds: usize, size: u32) -> Table {
    let bytes = digits(size.into());
    let title = format!("TFS: check of 4,096 blocks, by files of {bytes} bytes");
    let mut table = Table::new(&title, &BOTH);
    for count in [0, 1, 2, 4, 8, 12, 16, 20, 25] {
        let times = check(rounds, &with_files(MOST_BLOCKS, &vec![size; count]));
        table.row(&digits(count as f64), &times);
    }
    table
}
