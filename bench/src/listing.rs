//! Hexadecimal lines, and the listing of a text in document 01's format, with
//! the precedence of each node as document 02 adds it.

use crate::reader::{self, MAX_BYTES, NODE_WORDS, TABLE_WORDS};
use std::fmt::Write;

const KINDS: [&str; 8] = ["", "name", "number", "prefix", "infix", "postfix", "bracket", "block"];

/// The listing of a text with its canonical text, both buffers large enough.
pub fn of(text: &[u8]) -> String {
    let mut listing = reading(text);
    if listing.starts_with("refused") {
        return listing;
    }
    let mut buffer = [0; MAX_BYTES];
    let answer = reader::canonicalize(text, &mut buffer);
    if answer.number == 0 {
        let canonical = String::from_utf8_lossy(&buffer[..answer.count]);
        writeln!(listing, "tidy {}\n{canonical}", answer.count).unwrap();
    } else {
        writeln!(listing, "refused {} at {}", answer.number, answer.offset).unwrap();
    }
    listing
}

/// The listing of a text's reading alone.
pub fn reading(text: &[u8]) -> String {
    let mut nodes = [0; TABLE_WORDS];
    let answer = reader::read(text, &mut nodes);
    if answer.number != 0 {
        return format!("refused {} at {}\n", answer.number, answer.offset);
    }
    let mut listing = format!("read {}\n", answer.count);
    for (i, row) in nodes.chunks(NODE_WORDS).take(answer.count).enumerate() {
        let kind = KINDS[row[0] as usize];
        write!(listing, "{i} {kind}").unwrap();
        row[1..].iter().for_each(|word| write!(listing, " {word}").unwrap());
        listing.push('\n');
    }
    listing
}

/// Splits a file of listings, with canonical texts or without. Behind the
/// nodes of a reading, of which a blank rule has none, come two lines if it
/// has a canonical text, one if that is refused.
pub fn split(file: &str) -> Vec<String> {
    let lines: Vec<&str> = file.lines().collect();
    let mut listings = Vec::new();
    let mut rest = &lines[..];
    while let Some(first) = rest.first() {
        let len = match first.strip_prefix("read ").and_then(|count| count.parse::<usize>().ok()) {
            None => 1,
            Some(nodes) => match rest.get(1 + nodes) {
                Some(line) if line.starts_with("tidy ") => 1 + nodes + 2,
                Some(&"refused 13 at 0") => 1 + nodes + 1,
                _ => 1 + nodes,
            },
        };
        let (listing, next) = rest.split_at(len.min(rest.len()));
        listings.push(listing.join("\n") + "\n");
        rest = next;
    }
    listings
}

pub fn to_hex(text: &[u8]) -> String {
    text.iter().fold(String::with_capacity(2 * text.len()), |mut line, byte| {
        write!(line, "{byte:02x}").unwrap();
        line
    })
}

pub fn from_hex(line: &str) -> Option<Vec<u8>> {
    let digits: Option<Vec<u8>> = line.chars().map(|c| c.to_digit(16).map(|d| d as u8)).collect();
    let digits = digits.filter(|digits| digits.len() % 2 == 0)?;
    Some(digits.chunks(2).map(|pair| 16 * pair[0] + pair[1]).collect())
}
