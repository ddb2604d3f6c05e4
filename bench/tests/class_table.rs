//! The table of byte classes: what document 01's section "Tokens" gives each
//! byte, the stored output of program `class_table` and the constant in the
//! scanner's source, line by line.

use std::fs::read_to_string;

const STORED: &str = concat!(env!("CARGO_MANIFEST_DIR"), "/../crates/class_table/stdout");
const SOURCE: &str = concat!(env!("CARGO_MANIFEST_DIR"), "/../crates/scanner/src/classes.rt");

fn class(byte: u8) -> &'static str {
    match byte as char {
        '\t' | '\n' | '\r' | ' ' => "BLANK",
        c if c.is_ascii_alphabetic() => "LETTER",
        c if c.is_ascii_digit() => "DIGIT",
        '_' => "UNDERSCORE",
        c if "+-*/<>=!&|^~:?@#$%".contains(c) => "SIGN",
        '\'' => "QUOTE",
        '(' => "OPENING",
        ')' => "CLOSING",
        ';' => "SEMICOLON",
        _ => "OTHER",
    }
}

/// The lines of the constant.
fn constant(path: &str) -> Vec<String> {
    let text = read_to_string(path).expect(path);
    let mut lines: Vec<String> =
        text.lines().skip_while(|line| !line.starts_with("const CLASSES")).map(String::from).collect();
    let end = lines.iter().position(|line| line == "];").expect("end of the constant");
    lines.truncate(end + 1);
    lines
}

#[test]
fn one_table() {
    let mut expected = vec!["const CLASSES: [u8; 256] = [".to_string()];
    expected.extend((0..=255).map(|byte| format!("    {}, // {byte}", class(byte))));
    expected.push("];".into());
    assert_eq!(constant(STORED), expected);
    assert_eq!(constant(SOURCE), expected);
    assert_eq!(read_to_string(STORED).expect(STORED).lines().count(), expected.len());
}
