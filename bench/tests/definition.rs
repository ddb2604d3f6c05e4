//! The reader against all trees of a span, enumerated from document 01's
//! definition, each node with its level. Also: no span has two.

mod marks;

use marks::{LEAF, Mark, head, random_marks, trees};
use rule_bench::reader::{self, NODE_WORDS, TABLE_WORDS};
use rule_bench::texts::Random;
use std::fmt::Write;

/// The tree below a node, as `Tree` has its shape.
fn shape(nodes: &[u32], node: usize, first: usize) -> String {
    let row = &nodes[NODE_WORDS * node..][..NODE_WORDS];
    let &[kind, left, right, offset, _, level] = row else { unreachable!() };
    let at = (offset as usize).wrapping_sub(first) / 3;
    let child = |node| shape(nodes, node as usize, first);
    match kind {
        1 => format!("{at}:{level}"),
        4 => format!("(4@{at}:{level} {} {})", child(left), child(right)),
        _ => format!("({kind}@{at}:{level} {})", child(left)),
    }
}

fn check(marks: &[Mark], head: &str, items: &[u64]) -> bool {
    let mut text = String::from(head);
    for item in items {
        // Each item takes three bytes.
        if *item == LEAF { text += " xx" } else { write!(text, " m{item}").unwrap() }
    }
    text += " end";
    let expected = trees(marks, items, 0, items.len());
    assert!(expected.len() < 2, "two trees: {text}");
    let mut nodes = [0; TABLE_WORDS];
    let answer = reader::read(text.as_bytes(), &mut nodes);
    match expected.first() {
        None => assert_eq!((answer.number, answer.offset), (11, head.len() - 2), "{text}"),
        Some(tree) => {
            assert_eq!((answer.number, answer.count), (0, items.len() + 1), "{text}");
            let block = &nodes[NODE_WORDS * items.len()..][..NODE_WORDS];
            assert_eq!(block, [7, items.len() as u32 - 1, 0, 0, head.len() as u32, 0]);
            assert_eq!(tree.shape, shape(&nodes, items.len() - 1, head.len() + 1), "{text}");
        }
    }
    !expected.is_empty()
}

/// All sequences of up to six items, for random tables of three operators.
#[test]
fn short_spans() {
    let mut random = Random::new(1);
    let mut readable = 0;
    for _ in 0..300 {
        let marks = random_marks(&mut random, 3, 2);
        let head = head(&marks);
        for len in 0..=6 {
            for code in 0..4u64.pow(len) {
                let item = |i| match code / 4u64.pow(i) % 4 {
                    3 => LEAF,
                    mark => mark,
                };
                let items: Vec<u64> = (0..len).map(item).collect();
                readable += u32::from(check(&marks, &head, &items));
            }
        }
    }
    assert!(readable > 10_000, "{readable}");
}

/// Longer random sequences, half of them operators.
#[test]
fn longer_spans() {
    let mut random = Random::new(2);
    let mut readable = 0;
    for _ in 0..3000 {
        let count = 1 + random.below(6);
        let levels = 1 + random.below(4);
        let marks = random_marks(&mut random, count, levels);
        let head = head(&marks);
        for _ in 0..60 {
            let len = 5 + random.below(7);
            let mut item = || if random.below(2) == 0 { LEAF } else { random.below(count) };
            let items: Vec<u64> = (0..len).map(|_| item()).collect();
            readable += u32::from(check(&marks, &head, &items));
        }
    }
    assert!(readable > 1000, "{readable}");
}
