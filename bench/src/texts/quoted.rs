//! Quoted names with quotes among their characters, and such as are malformed.

use super::Random;

/// A quoted name: its quotes doubled, between two.
pub fn quoted(characters: &[u8]) -> Vec<u8> {
    let mut name = vec![b'\''];
    for &character in characters {
        name.push(character);
        if character == b'\'' {
            name.push(character);
        }
    }
    name.push(b'\'');
    name
}

/// A quoted name of a few characters, many of them quotes.
pub fn short(random: &mut Random) -> Vec<u8> {
    let alphabet = random.pick::<&[u8]>(&[b"'", b"'a", b"''ab +(;~", b"'+", b"'not"]);
    let len = 1 + random.index(8);
    let characters: Vec<u8> = (0..len).map(|_| *random.pick(alphabet)).collect();
    quoted(&characters)
}

/// A quoted name of `len` characters: quotes in front, behind, everywhere, or
/// at random.
pub fn long(random: &mut Random, len: usize) -> Vec<u8> {
    let quotes = random.index(len + 1);
    let one_in = 1 + random.below(9);
    let style = random.below(4);
    let characters: Vec<u8> = (0..len)
        .map(|at| {
            let quote = match style {
                0 => at < quotes,
                1 => at >= quotes,
                2 => true,
                _ => random.one_in(one_in),
            };
            if quote { b'\'' } else { *random.pick(b"xy -+~") }
        })
        .collect();
    quoted(&characters)
}

/// A quoted name that is malformed or falls apart: a quote too many or too few,
/// or a byte that no name has.
pub fn damaged(random: &mut Random) -> Vec<u8> {
    let len = if random.one_in(3) { 62 + random.index(3) } else { 1 + random.index(5) };
    let mut name = long(random, len);
    let at = random.index(name.len());
    match random.below(5) {
        0 => drop(name.pop()),
        1 => name.push(b'\''),
        2 => drop(name.remove(at)),
        3 => name.insert(at, b'\''),
        _ => name[at] = *random.pick(&[0, 9, 10, 31, 127, 128, 255]),
    }
    name
}
