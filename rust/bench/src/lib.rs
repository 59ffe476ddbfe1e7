//! Times of the library's entries beside those of a Rust version written plainly and for speed.
#![forbid(unsafe_code)]

pub mod fast;
