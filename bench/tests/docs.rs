//! Each example of docs/RULES.md and docs/REFUSALS.md is a case of program
//! `documented`.
//!
//! An example is two fenced blocks: the text, in a block `rule` as it is or in
//! a block `long` in parts, then a block `listing` with what is printed. A
//! listing may be shown from the first line behind its nodes on. Where the text
//! is refused with 11, and only there, a block `located` follows with the
//! answer of `locate`; these are calls of program `services`.

use rule_bench::listing;
use rule_bench::reader::locate;
use std::fs::read_to_string;

const DOCUMENTS: [&str; 2] = ["docs/RULES.md", "docs/REFUSALS.md"];

/// The calls of program `services` that are no examples come first.
const RECORDED_CALLS: usize = 1183;

struct Example {
    /// The document, and the line where the text begins.
    at: String,
    text: Vec<u8>,
    shown: String,
    located: Option<String>,
}

/// A file of the repository.
fn file(path: &str) -> String {
    read_to_string(format!("{}/../{path}", env!("CARGO_MANIFEST_DIR"))).expect(path)
}

/// The fenced blocks of a document: where, the word behind the fence, the
/// lines.
fn blocks<'d>(path: &str, document: &'d str) -> Vec<(String, &'d str, Vec<&'d str>)> {
    let mut blocks = Vec::new();
    let mut lines = document.lines().enumerate();
    while let Some((number, line)) = lines.next() {
        if let Some(word) = line.trim_start().strip_prefix("```") {
            let at = format!("{path}:{}", number + 1);
            let inside = lines.by_ref().map(|(_, line)| line).take_while(|line| *line != "```");
            blocks.push((at, word, inside.collect()));
        }
    }
    blocks
}

/// The text of a part: once `TEXT`, 33 times `TEXT`, or for N from 1 to 57
/// `TEXT`, where N in the text is the number.
fn part(line: &str) -> Option<String> {
    let (count, text) = line.strip_suffix('`')?.split_once(" `")?;
    if count == "once" {
        return Some(text.into());
    }
    if let Some(last) = count.strip_prefix("for N from 1 to ") {
        let last: usize = last.parse().ok()?;
        return Some((1..=last).map(|n| text.replace('N', &n.to_string())).collect());
    }
    Some(text.repeat(count.strip_suffix(" times")?.parse().ok()?))
}

fn examples(path: &str) -> Vec<Example> {
    let document = file(path);
    let blocks = blocks(path, &document);
    let mut rest = &blocks[..];
    let mut examples = Vec::new();
    while let [(at, word, text), behind @ ..] = rest {
        let [(_, "listing", shown), behind @ ..] = behind else {
            panic!("{at}: no listing behind the text");
        };
        let located = match behind {
            [(_, "located", answer), ..] => Some(answer.join("\n")),
            _ => None,
        };
        rest = &behind[usize::from(located.is_some())..];
        let text = match *word {
            "rule" => text.join("\n"),
            "long" => text.iter().map(|line| part(line).unwrap_or_else(|| panic!("{at}: {line}"))).collect(),
            _ => panic!("{at}: neither rule nor long"),
        };
        examples.push(Example { at: at.clone(), text: text.into(), shown: shown.join("\n") + "\n", located });
    }
    examples
}

/// What a listing has behind its nodes.
fn behind_nodes(listing: &str) -> &str {
    let nodes = listing.lines().next().and_then(|line| line.strip_prefix("read "));
    let lines = nodes.map_or(0, |count| 1 + count.parse::<usize>().unwrap());
    let start: usize = listing.split_inclusive('\n').take(lines).map(str::len).sum();
    &listing[start..]
}

/// The examples are the cases, in the same order.
#[test]
fn examples_are_cases() {
    let (texts, listings) = (file("crates/documented/stdin"), file("crates/documented/stdout"));
    let (texts, listings): (Vec<&str>, _) = (texts.lines().collect(), listing::split(&listings));
    let examples: Vec<Example> = DOCUMENTS.into_iter().flat_map(examples).collect();
    for (number, Example { at, text, shown, .. }) in examples.iter().enumerate() {
        let line = listing::to_hex(text);
        assert_eq!(texts.get(number), Some(&line.as_str()), "{at}: line {} of stdin", number + 1);
        let printed = listings.get(number).unwrap_or_else(|| panic!("{at}: no listing in stdout"));
        assert!(shown == printed || shown == behind_nodes(printed), "{at}\nshown\n{shown}printed\n{printed}");
    }
    assert_eq!((texts.len(), listings.len()), (examples.len(), examples.len()));
}

/// An example refused with 11 has the answer of `locate`, which is that of this
/// reader, and is a call of program `services` behind the recorded ones.
#[test]
fn located_examples_are_calls() {
    let (calls, answers) = (file("crates/services/stdin"), file("crates/services/stdout"));
    let mut behind = calls.lines().zip(answers.lines()).skip(RECORDED_CALLS);
    for Example { at, text, shown, located } in DOCUMENTS.into_iter().flat_map(examples) {
        assert_eq!(located.is_some(), shown.starts_with("refused 11 at "), "{at}");
        let Some(located) = located else { continue };
        let answer = locate(&text);
        assert_eq!(located, format!("refused {} at {}", answer.number, answer.offset), "{at}");
        let call = format!("locate {}", listing::to_hex(&text));
        assert_eq!(behind.next(), Some((call.as_str(), located.as_str())), "{at}");
    }
    assert_eq!(behind.next(), None);
}

/// The listings of the cases are those of this reader.
#[test]
fn listings() {
    let texts = file("crates/documented/stdin");
    let texts = texts.lines().map(|line| listing::from_hex(line).expect("hexadecimal"));
    let listings: String = texts.map(|text| listing::of(&text)).collect();
    assert!(listings == file("crates/documented/stdout"));
}

/// docs/REFUSALS.md has a section for each number, in order, with an example
/// of its refusal. Number 12 has none: the program's node table is never too
/// short.
#[test]
fn refusals() {
    let document = file(DOCUMENTS[1]);
    let sections: Vec<&str> = document.split("\n## ").skip(1).collect();
    assert_eq!(sections.len(), 14);
    for (number, section) in (1..=13).chain([17]).zip(sections) {
        assert!(section.starts_with(&format!("{number}: ")), "{number}");
        let refused = section.contains(&format!("```listing\nrefused {number} at "));
        assert_eq!(refused, number != 12, "{number}");
    }
}
