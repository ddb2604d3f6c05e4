//! Both readers on generated texts: every answer, and every word or byte of
//! the buffers.

use crate::archive;
use rule_bench::listing;
use rule_bench::reader::{self, Answer, NODE_WORDS, TABLE_WORDS};
use rule_bench::texts::{Random, Texts};

const MAX_SHOWN: u64 = 10;
/// Nodes of a table whose names are compared, at most.
const MAX_NODES: usize = 40;

pub fn run(seed: u64, n: u64) -> Result<(), String> {
    let mut texts = Texts::new(seed);
    let mut random = Random::new(!seed);
    let mut reading = Service {
        calls: [reader::read, archive::read],
        items: NODE_WORDS,
        full: TABLE_WORDS,
        tally: Tally::new("reading", |bits| (bits >> 32) as u32),
    };
    let mut canonical = Service {
        calls: [reader::canonicalize, archive::canonicalize],
        items: 1,
        full: reader::MAX_BYTES,
        tally: Tally::new("canonical text", |bits| (bits >> 56) as u8),
    };
    let mut names = Tally::new("names", |bits| (bits >> 56) as u8);
    let mut places = Tally::new("places", |_| ());
    for _ in 0..n {
        let text = texts.next();
        reading.compare(&text, &mut random);
        canonical.compare(&text, &mut random);
        compare_names(&mut names, &text, &mut random);
        compare_places(&mut places, &text, &mut random);
    }
    let reports = [reading.tally.report(n), canonical.tally.report(n), names.report(n), places.report(n)];
    reports.into_iter().collect()
}

/// How often the answers had each number, and how often the two readers
/// differ.
struct Tally<T> {
    name: &'static str,
    /// A word or byte of the pattern that fills the buffer.
    item: fn(u64) -> T,
    by_number: [u64; 18],
    differ: u64,
}

impl<T: Copy + PartialEq> Tally<T> {
    fn new(name: &'static str, item: fn(u64) -> T) -> Self {
        Tally { name, item, by_number: [0; 18], differ: 0 }
    }

    /// One call by the Rust reader and one by the archive, with a buffer of
    /// `len` items each; `shown` says what else the call is given.
    fn compare(
        &mut self,
        text: &[u8],
        shown: impl Fn() -> String,
        len: usize,
        random: &mut Random,
        calls: [&dyn Fn(&mut [T]) -> Answer; 2],
    ) {
        let pattern = self.pattern(random, len);
        let (mut ours, mut theirs) = (pattern.clone(), pattern);
        let answer = calls[0](&mut ours);
        let other = calls[1](&mut theirs);
        self.by_number[answer.number as usize] += 1;
        if answer == other && ours == theirs {
            return;
        }
        self.differ += 1;
        if self.differ <= MAX_SHOWN {
            let first = ours.iter().zip(&theirs).position(|(a, b)| a != b);
            println!("{}", listing::to_hex(text));
            println!("  {}{}, buffer of {len}: Rust {answer:?}, archive {other:?}", self.name, shown());
            println!("  first item that differs: {first:?}");
        }
    }

    fn pattern(&self, random: &mut Random, len: usize) -> Vec<T> {
        let first = random.bits();
        let bits = |i: u64| first.wrapping_add(i.wrapping_mul(0x9E37_79B9_7F4A_7C15));
        (0..len as u64).map(|i| (self.item)(bits(i))).collect()
    }

    fn report(&self, n: u64) -> Result<(), String> {
        let Tally { name, by_number, differ, .. } = self;
        let calls: u64 = by_number.iter().sum();
        println!("{name}: {calls} calls on {n} texts, {differ} differ; by number: {by_number:?}");
        if *differ == 0 { Ok(()) } else { Err(format!("{name}: the readers differ")) }
    }
}

/// A reader's service: a text in, a buffer of words or bytes out.
type Call<T> = fn(&[u8], &mut [T]) -> Answer;

/// Reading or canonical text, by the Rust reader and by the archive.
struct Service<T> {
    calls: [Call<T>; 2],
    /// How many words or bytes an answer's count stands for.
    items: usize,
    /// A length that is enough for every text.
    full: usize,
    tally: Tally<T>,
}

impl<T: Copy + Default + PartialEq> Service<T> {
    /// Calls both with several lengths of the buffer.
    fn compare(&mut self, text: &[u8], random: &mut Random) {
        let [rust, archive] = self.calls;
        let count = rust(text, &mut vec![T::default(); self.full]).count;
        for len in lengths(random, self.items * count, self.full) {
            let rust = |buffer: &mut [T]| rust(text, buffer);
            let archive = |buffer: &mut [T]| archive(text, buffer);
            self.tally.compare(text, String::new, len, random, [&rust, &archive]);
        }
    }
}

/// Exactly what is needed, one less, none, about as much, more than enough,
/// and any.
fn lengths(random: &mut Random, needed: usize, full: usize) -> [usize; 6] {
    let near = (needed + random.index(14)).saturating_sub(7);
    let any = if random.one_in(2) { random.index(12) } else { random.index(full + 100) };
    [needed, needed.saturating_sub(1), 0, near, full + random.index(full / 8), any]
}

/// The names of a text: of each node, or of a sample where there are many; of
/// no node; of a table that is cut short; of words that no reading gives.
fn compare_names(names: &mut Tally<u8>, text: &[u8], random: &mut Random) {
    let mut nodes = table(text, random);
    let whole = nodes.len() / NODE_WORDS;
    for i in 0..whole.min(MAX_NODES) {
        let node = if whole <= MAX_NODES { i } else { random.index(whole) };
        compare_name(names, text, &nodes, node, random);
    }
    // Six times these is more than a number can be, or just not.
    let large = usize::MAX / NODE_WORDS + random.index(3);
    for node in [whole, whole + 1 + random.index(100), large, random.bits() as usize, usize::MAX] {
        compare_name(names, text, &nodes, node, random);
    }
    let cut = random.index(nodes.len() + 1);
    for node in [cut / NODE_WORDS, (cut / NODE_WORDS).saturating_sub(1)] {
        compare_name(names, text, &nodes[..cut], node, random);
    }
    for _ in 0..if whole > 0 { 4 } else { 0 } {
        let node = random.index(whole);
        let word = random.index(NODE_WORDS);
        nodes[NODE_WORDS * node + word] = odd_word(text, random);
        nodes[NODE_WORDS * node + 3 + random.index(2)] = odd_word(text, random);
        compare_name(names, text, &nodes, node, random);
    }
}

/// The table of a text that is read, with some words behind it; else a few
/// words.
fn table(text: &[u8], random: &mut Random) -> Vec<u32> {
    let mut nodes = vec![0; TABLE_WORDS];
    let answer = reader::read(text, &mut nodes);
    nodes.truncate(NODE_WORDS * answer.count);
    let behind = random.index(4 * NODE_WORDS);
    nodes.extend((0..behind).map(|_| odd_word(text, random)));
    nodes
}

/// An offset or a length in the text or past it, or any word.
fn odd_word(text: &[u8], random: &mut Random) -> u32 {
    let len = text.len() as u32;
    match random.below(6) {
        0 => 0,
        1 => u32::MAX - random.below(3) as u32,
        2 => (len + 2).saturating_sub(random.below(5) as u32),
        3 => random.bits() as u32,
        _ => random.below(u64::from(len) + 1) as u32,
    }
}

/// One name: a buffer just as long as needed, one shorter, none, and longer.
fn compare_name(names: &mut Tally<u8>, text: &[u8], nodes: &[u32], node: usize, random: &mut Random) {
    let needed = reader::write_name(text, nodes, node, &mut vec![0; text.len()]).count;
    for len in [needed, needed.saturating_sub(1), 0, needed + 1 + random.index(70)] {
        let shown = || format!(", node {node} of {nodes:?}");
        let rust = |buffer: &mut [u8]| reader::write_name(text, nodes, node, buffer);
        let archive = |buffer: &mut [u8]| archive::write_name(text, nodes, node, buffer);
        names.compare(text, shown, len, random, [&rust, &archive]);
    }
}

/// Where a text is lost: no buffer.
fn compare_places(places: &mut Tally<()>, text: &[u8], random: &mut Random) {
    let rust = |_: &mut [()]| reader::locate(text);
    let archive = |_: &mut [()]| archive::locate(text);
    places.compare(text, String::new, 0, random, [&rust, &archive]);
}
