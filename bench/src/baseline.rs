//! What the library is compared with, in plain Rust.
pub mod by_key;
pub mod files;
pub mod map;
pub mod reading;
