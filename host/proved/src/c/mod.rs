//! The requests with their answers just as the C structs hold them.
//!
//! A field that an answer has no use for is there too: the headers say that it is 0.

/// Fails to compile where a struct has another size, or a field another offset, than its header
/// asserts.
macro_rules! layout {
    ($name:ident: $size:literal, $($field:ident at $offset:literal),+) => {
        const _: () = {
            assert!(size_of::<$name>() == $size);
            $(assert!(std::mem::offset_of!($name, $field) == $offset);)+
        };
    };
}

pub mod romfs;
pub mod tfs;
pub mod timing;
pub mod trace;
