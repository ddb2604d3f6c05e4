//! The generated texts meet every check and blank rules, and the reader keeps
//! to the node table: a rejection changes nothing, a reading only its own
//! words.

use rule_bench::reader::{Answer, MAX_BYTES, NODE_WORDS, TABLE_WORDS, read};
use rule_bench::texts::{Random, Texts};

const PATTERN: u32 = 0xA5A5_5A5A;

#[test]
fn same_seed_same_texts() {
    let (mut one, mut two) = (Texts::new(7), Texts::new(7));
    (0..500).for_each(|_| assert_eq!(one.next(), two.next()));
}

#[test]
fn every_check_occurs() {
    let mut seen = [0; 18];
    let mut texts = Texts::new(3);
    for _ in 0..40_000 {
        seen[read(&texts.next(), &mut [0; TABLE_WORDS]).number as usize] += 1;
    }
    println!("answers by number: {seen:?}");
    let given = |number| number < 12 || number == 17;
    let right = |(number, &count)| if given(number) { count >= 20 } else { count == 0 };
    assert!(seen[0] > 12_000 && seen.iter().enumerate().all(right), "{seen:?}");
}

/// Empty or all blanks.
fn is_blank(text: &[u8]) -> bool {
    text.iter().all(|byte| b" \t\n\r".contains(byte))
}

#[test]
fn blank_texts_occur() {
    let (mut empty, mut short, mut longest, mut too_long) = (0, 0, 0, 0);
    let mut texts = Texts::new(3);
    for text in (0..40_000).map(|_| texts.next()).filter(|text| is_blank(text)) {
        match text.len() {
            0 => empty += 1,
            1..=40 => short += 1,
            16_384 => longest += 1,
            16_385 => too_long += 1,
            _ => {}
        }
    }
    println!("blank texts: {empty} {short} {longest} {too_long}");
    assert!(empty >= 100 && short >= 200 && longest >= 3 && too_long >= 3);
}

#[test]
fn node_table() {
    let mut texts = Texts::new(5);
    let mut random = Random::new(5);
    for _ in 0..40_000 {
        let text = texts.next();
        let mut full = [PATTERN; TABLE_WORDS + 2 * NODE_WORDS];
        let answer = read(&text, &mut full);
        let words = NODE_WORDS * answer.count;
        assert!(full[words..].iter().all(|&word| word == PATTERN));
        let blank = is_blank(&text) && text.len() <= MAX_BYTES;
        assert_eq!(answer.number == 0, answer.count > 0 || blank);
        let (more, fewer) = (random.index(2 * NODE_WORDS), 1 + random.index(NODE_WORDS));
        for len in [words + more, words, words.saturating_sub(fewer)] {
            let mut nodes = vec![PATTERN; len];
            let short = read(&text, &mut nodes);
            if len >= words {
                assert_eq!((short, &nodes[..]), (answer, &full[..len]));
            } else {
                assert_eq!(short, Answer { number: 12, offset: 0, count: 0 });
                assert!(nodes.iter().all(|&word| word == PATTERN));
            }
        }
    }
}
