//! Names by characters: document 02, section 5. Check 13 for a name.
//!
//! A quote is written as two in a quoted name. What is written and the
//! characters determine each other, so two names are the same exactly if they
//! are written alike between their quotes, or without quotes.

use super::{NODE_WORDS, Reject};

/// Where the words of a node stand.
const OFFSET: usize = 3;
const LENGTH: usize = 4;

/// What is written at a node, cut to the text; nothing if the table does not
/// have the whole node.
pub fn written<'t>(text: &'t [u8], nodes: &[u32], node: usize) -> &'t [u8] {
    let Some(row) = nodes.as_chunks::<NODE_WORDS>().0.get(node) else { return &[] };
    let behind = text.get(row[OFFSET] as usize..).unwrap_or_default();
    &behind[..behind.len().min(row[LENGTH] as usize)]
}

/// The characters of what is written: of a quote and the byte behind it the
/// quote alone.
pub fn characters(written: &[u8]) -> impl Iterator<Item = u8> {
    let mut bytes = written.iter().copied();
    core::iter::from_fn(move || {
        let byte = bytes.next()?;
        if byte == b'\'' {
            bytes.next();
        }
        Some(byte)
    })
}

/// Check 13, then the characters. How many.
pub fn write(written: &[u8], buffer: &mut [u8]) -> Result<usize, Reject> {
    let count = characters(written).count();
    let front = buffer.get_mut(..count).ok_or_else(|| Reject::new(13, 0))?;
    front.iter_mut().zip(characters(written)).for_each(|(byte, character)| *byte = character);
    Ok(count)
}
