//! The recorded cases of program `cases`: texts in hexadecimal, and their
//! listings with canonical texts.

use rule_bench::listing;
use std::fs::read_to_string;

const TEXTS: &str = concat!(env!("CARGO_MANIFEST_DIR"), "/../crates/cases/stdin");
const LISTINGS: &str = concat!(env!("CARGO_MANIFEST_DIR"), "/../crates/cases/stdout");

#[test]
fn recorded() {
    let (texts, recorded) = (read_to_string(TEXTS).expect(TEXTS), read_to_string(LISTINGS).expect(LISTINGS));
    let recorded = listing::split(&recorded);
    assert_eq!(texts.lines().count(), recorded.len());
    for (line, expected) in texts.lines().zip(recorded) {
        let text = listing::from_hex(line).expect("hexadecimal");
        assert_eq!(listing::of(&text), expected, "{}", String::from_utf8_lossy(&text));
    }
}
