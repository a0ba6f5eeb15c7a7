//! The C side: what the headers say of the archives, and what compilers make of the headers.

mod archives;
mod build;
mod compiler;
mod cost;
mod declared;
mod layout;
mod no_bytes;
mod numbers;
mod refusals;
mod returned;
mod standards;
mod texts;
mod unused;
