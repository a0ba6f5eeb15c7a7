//! The exit statuses in words.

/// Each exit status and when it is given.
pub const STATUSES: [(u8, &str); 9] = [
    (0, "done"),
    (
        1,
        "refused by the rules of the filesystem, or a part goes past the end of a file there",
    ),
    (2, "wrong usage"),
    (3, "a host file cannot be read or written"),
    (4, "a replayed request was answered otherwise"),
    (
        5,
        "a record or a line of a trace, or a file of timing values, is malformed",
    ),
    (6, "another command holds a file"),
    (7, "extracted but for some entries"),
    (141, "nobody reads the output any more"),
];

/// What is left behind after a failure.
pub const LEFT_BEHIND: &str = "After a failure every file is as it was, but: replay --out writes its copy; --record adds refused
requests to the trace; what was written before standard output failed stays, and so do a folder
extracted in part and the host files that get --to had put there; so does an image or file whose
trace could not be put in place; and so do the blocks that a command in place had stored. The
message says so in the last two cases.";
