//! The commands on the timing file.

use super::options::*;
use super::plain;
use super::table::{Command, Kind, Plain, Times};
use crate::arguments::Arguments;
use crate::failure::{Failure, Outcome};
use crate::{numbers, timing};

static VALUES: Plain = Plain {
    name: "VALUES",
    kind: Kind::File,
    times: Times::Once,
    about: "host file with 28 numbers, or - for standard input",
};

pub static COMMANDS: [Command; 4] = [
    Command {
        name: "timing show",
        plain: &[&plain::IMAGE],
        needed: &[],
        options: &[&JSON, &WAIT],
        summary: "Prints the board number, the memory maker number and the 28 values of the timing file.",
        text: "The file is TIMING. A board number of 0 says that the lid was opened, or that a first store was cut
off. Refused where the file is absent (13) or has another size than 64 bytes (35).",
        run: |given| timing::show(given.path(0), given.form()),
    },
    Command {
        name: "timing store",
        plain: &[&plain::IMAGE, &VALUES],
        needed: &[&BOARD, &MAKER],
        options: &[&IN_PLACE, &WAIT],
        summary: "Stores both numbers and 28 values in the timing file, which is made if it is absent.",
        text: "VALUES has numbers from 0 to 65535 and white space between them, as tfs timing boot prints them.
Where it has others, or over 64 KiB (exit status 5), the image is not even read. All numbers are
decimal, or hex after 0x. Refused for board number 0 (34), where the file has another size than 64
bytes (35), and where it is absent and has no slot (11) or no room (12). A boot after a cut in
place, and tfs mend, gets the old values, the new ones, or none.",
        run: store,
    },
    Command {
        name: "timing open-lid",
        plain: &[&plain::IMAGE],
        needed: &[],
        options: &[&IN_PLACE, &WAIT],
        summary: "Notes in the timing file that the lid was opened.",
        text: "The board number there becomes 0, and no boot gets values until some are stored again, unless TIMING
itself is written by put. Refused where the file is absent (13) or has another size than 64 bytes
(35).",
        run: |given| timing::open_lid(given.path(0), given.flag(&IN_PLACE)),
    },
    Command {
        name: "timing boot",
        plain: &[&plain::IMAGE],
        needed: &[&BOARD, &MAKER],
        options: &[&JSON, &WAIT],
        summary: "Prints the 28 values, if the timing file has both these numbers.",
        text: "Else it refuses as the pump's boot does: the file is absent (13), has another size than 64 bytes
(35), has board number 0 (34: the lid was opened, or a first store was cut off), is another board's
(36), another memory maker's (37). Changes nothing.",
        run: |given| timing::boot(given.path(0), owner(given)?, given.form()),
    },
];

fn store(given: &Arguments) -> Outcome {
    let (owner, in_place) = (owner(given)?, given.flag(&IN_PLACE));
    timing::store(given.path(0), owner, given.path(1), in_place)
}

/// The numbers that a command on the timing file needs.
fn owner(given: &Arguments) -> Result<timing::Owner, Failure> {
    Ok(timing::Owner {
        board: given.read(&BOARD, numbers::number)?,
        maker: given.read(&MAKER, numbers::number)?,
    })
}
