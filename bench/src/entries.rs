//! The Rust reader by the C signatures of the archive, so that both are called
//! and counted alike.

use crate::reader::{self, Answer};
use std::slice::{from_raw_parts, from_raw_parts_mut};

/// # Safety
/// `text` and `nodes` point to as many bytes and words as the lengths say.
#[unsafe(no_mangle)]
pub unsafe extern "C" fn rust_read(
    text: *const u8,
    text_len: usize,
    nodes: *mut u32,
    nodes_len: usize,
) -> Answer {
    // SAFETY: what the caller promises.
    unsafe { reader::read(from_raw_parts(text, text_len), from_raw_parts_mut(nodes, nodes_len)) }
}

/// # Safety
/// As for `rust_read`, with a buffer of bytes.
#[unsafe(no_mangle)]
pub unsafe extern "C" fn rust_canonicalize(
    text: *const u8,
    text_len: usize,
    buffer: *mut u8,
    buffer_len: usize,
) -> Answer {
    // SAFETY: what the caller promises.
    unsafe { reader::canonicalize(from_raw_parts(text, text_len), from_raw_parts_mut(buffer, buffer_len)) }
}
