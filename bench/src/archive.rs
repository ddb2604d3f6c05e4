//! The proved reader, by the archive that `c/archive` writes.

use rule_bench::reader::Answer;

unsafe extern "C" {
    pub fn rule_read(text: *const u8, text_len: usize, nodes: *mut u32, nodes_len: usize) -> Answer;
    pub fn rule_canonicalize(text: *const u8, text_len: usize, buffer: *mut u8, buffer_len: usize) -> Answer;
    fn rule_write_name(
        text: *const u8,
        text_len: usize,
        nodes: *const u32,
        nodes_len: usize,
        node: usize,
        buffer: *mut u8,
        buffer_len: usize,
    ) -> Answer;
    fn rule_locate(text: *const u8, text_len: usize) -> Answer;
}

pub fn read(text: &[u8], nodes: &mut [u32]) -> Answer {
    // SAFETY: pointers and lengths of live slices; the archive keeps to them.
    unsafe { rule_read(text.as_ptr(), text.len(), nodes.as_mut_ptr(), nodes.len()) }
}

pub fn canonicalize(text: &[u8], buffer: &mut [u8]) -> Answer {
    // SAFETY: as in `read`.
    unsafe { rule_canonicalize(text.as_ptr(), text.len(), buffer.as_mut_ptr(), buffer.len()) }
}

pub fn write_name(text: &[u8], nodes: &[u32], node: usize, buffer: &mut [u8]) -> Answer {
    let (out, out_len) = (buffer.as_mut_ptr(), buffer.len());
    // SAFETY: as in `read`.
    unsafe { rule_write_name(text.as_ptr(), text.len(), nodes.as_ptr(), nodes.len(), node, out, out_len) }
}

pub fn locate(text: &[u8]) -> Answer {
    // SAFETY: as in `read`.
    unsafe { rule_locate(text.as_ptr(), text.len()) }
}
