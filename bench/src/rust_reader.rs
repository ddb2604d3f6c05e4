//! A static library of the Rust reader for C programs, which `bench/rows` counts beside the archive.

pub use rule_bench::entries::{rust_canonicalize, rust_read};
