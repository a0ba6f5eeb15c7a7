//! The plain arguments that several commands have.

use super::table::{Kind, Plain, Times};

pub static IMAGE: Plain = Plain {
    name: "IMAGE",
    kind: Kind::File,
    times: Times::Once,
    about: "file or block device with the volume",
};

pub static NEW_IMAGE: Plain = Plain {
    name: "IMAGE",
    kind: Kind::File,
    times: Times::Once,
    about: "file that is made",
};

pub static MORE_IMAGES: Plain = Plain {
    name: "IMAGE",
    kind: Kind::File,
    times: Times::Any,
    about: "others, each with a volume",
};

pub static ROM: Plain = Plain {
    name: "IMAGE",
    kind: Kind::File,
    times: Times::Once,
    about: "file with the romfs image",
};

pub static NAME: Plain = Plain {
    name: "NAME",
    kind: Kind::Free,
    times: Times::Once,
    about: "name of a file in the volume",
};

pub static TRACE: Plain = Plain {
    name: "TRACE",
    kind: Kind::File,
    times: Times::Once,
    about: "file of the trace",
};
