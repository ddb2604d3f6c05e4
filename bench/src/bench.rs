//! Time per call on fixed texts, best of several runs.

#[cfg(feature = "archive")]
use crate::archive::{rule_canonicalize, rule_read};
use rule_bench::entries::{rust_canonicalize, rust_read};
use rule_bench::listing;
use rule_bench::reader::{Answer, MAX_BYTES, TABLE_WORDS};
use std::fmt::Write;
use std::hint::black_box;
use std::time::{Duration, Instant};

const RUNS: usize = 200;
const RUN_TIME: Duration = Duration::from_millis(4);

/// A reader's service by its C signature, the same for both readers: a text in,
/// a buffer of words or bytes out.
type Entry<T> = unsafe extern "C" fn(*const u8, usize, *mut T, usize) -> Answer;

#[cfg(not(feature = "archive"))]
const READ: [(&str, Entry<u32>); 1] = [("Rust ns", rust_read)];
#[cfg(feature = "archive")]
const READ: [(&str, Entry<u32>); 2] = [("Rust ns", rust_read), ("archive ns", rule_read)];

#[cfg(not(feature = "archive"))]
const CANONICALIZE: [(&str, Entry<u8>); 1] = [("Rust ns", rust_canonicalize)];
#[cfg(feature = "archive")]
const CANONICALIZE: [(&str, Entry<u8>); 2] =
    [("Rust ns", rust_canonicalize), ("archive ns", rule_canonicalize)];

fn call<T>(entry: Entry<T>, text: &[u8], buffer: &mut [T]) -> Answer {
    // SAFETY: pointers and lengths of live slices; both readers keep to them.
    unsafe { entry(text.as_ptr(), text.len(), buffer.as_mut_ptr(), buffer.len()) }
}

/// A text, and the number and the place of its refusal, 0 and 0 if it is read.
struct Row {
    name: &'static str,
    text: String,
    refused: (u8, usize),
}

fn rows() -> Vec<Row> {
    let read = |name, text: String| Row { name, text, refused: (0, 0) };
    let refused = |name, number, text: &str| Row { name, text: text.into(), refused: (number, 0) };
    vec![
        read("12 bytes", "visits < 100".into()),
        read("typical rule", "age < 18 and not member or visits * 2 + guests = limit - 1".into()),
        read("three declarations", three_declarations()),
        read("a, 511 x ` + a`", format!("a{}", " + a".repeat(511))),
        read("1,023 x `not `, a", format!("{}a", "not ".repeat(1023))),
        read("32 nested brackets", format!("{}a{}", "(".repeat(32), ")".repeat(32))),
        read("32 nested blocks", nested_blocks()),
        read("64 operators, 340 uses", declared_operators()),
        refused("bad first byte", 2, "\"age\" < 18 and not member or visits * 2 + guests = limit"),
        refused("no tree", 11, "age < 18 and not member or visits * 2 + guests = limit = 1"),
    ]
}

/// A block with an operator of each fixity, each used.
fn three_declarations() -> String {
    "let infix left 350 // ; prefix right 650 no ; postfix left 250 twice ; \
     in no member and visits twice // 2 < limit end"
        .into()
}

/// Each block declares one operator and uses it.
fn nested_blocks() -> String {
    let mut text = String::new();
    for i in 0..32 {
        write!(text, "let infix left {} o{i} ; in a o{i} ", 350 + i).unwrap();
    }
    text + "a" + &" end".repeat(32)
}

/// 56 new operators and eight declarations of starting ones; 340 of the new
/// ones in a chain, precedences up and down.
fn declared_operators() -> String {
    let mut text = String::from(
        "let prefix non 400 - ; prefix non 400 + ; postfix left 300 * ; infix non 500 = ; \
         infix non 500 < ; infix left 400 + ; infix left 400 - ; infix left 300 * ; ",
    );
    for i in 0..56 {
        write!(text, "infix left {} op{i} ; ", 1 + (i * 467) % 1199).unwrap();
    }
    text += "in a";
    for i in 0..340 {
        write!(text, " op{} a", (i * 31) % 56).unwrap();
    }
    text + " end"
}

/// The best time so far of one reader on one text.
struct Timer<T> {
    entry: Entry<T>,
    calls: u32,
    best: f64,
}

impl<T> Timer<T> {
    /// Finds how many calls fill a run.
    fn new(entry: Entry<T>, text: &[u8], buffer: &mut [T]) -> Self {
        let start = Instant::now();
        let mut calls = 0;
        while start.elapsed() < RUN_TIME {
            (0..16).for_each(|_| _ = black_box(call(black_box(entry), black_box(text), black_box(buffer))));
            calls += 16;
        }
        Timer { entry, calls, best: f64::MAX }
    }

    fn run(&mut self, text: &[u8], buffer: &mut [T]) {
        let start = Instant::now();
        (0..self.calls).for_each(|_| _ = black_box(call(self.entry, black_box(text), black_box(buffer))));
        self.best = self.best.min(start.elapsed().as_nanos() as f64 / f64::from(self.calls));
    }
}

/// Prints each text in hexadecimal, and its name.
pub fn print_rows() -> Result<(), String> {
    for Row { name, text, .. } in rows() {
        println!("{} {name}", listing::to_hex(text.as_bytes()));
    }
    Ok(())
}

pub fn run() -> Result<(), String> {
    times(["reading", "nodes"], READ, &mut [0; TABLE_WORDS])?;
    println!();
    times(["canonical text", "written"], CANONICALIZE, &mut [0; MAX_BYTES])
}

/// Times one service of each reader; `titles` of the table and of the count.
fn times<T, const N: usize>(
    titles: [&str; 2],
    readers: [(&str, Entry<T>); N],
    buffer: &mut [T],
) -> Result<(), String> {
    let rows = rows();
    let mut timers = Vec::new();
    for Row { name, text, refused } in &rows {
        for (reader, entry) in readers {
            let answer = call(entry, text.as_bytes(), buffer);
            if (answer.number, answer.offset) != *refused {
                return Err(format!("{name}, {reader}: {answer:?}"));
            }
        }
        timers.push(readers.map(|(_, entry)| Timer::new(entry, text.as_bytes(), buffer)));
    }
    // Turn by turn, so that a busy moment of the machine spoils no row.
    for _ in 0..RUNS {
        for (Row { text, .. }, timers) in rows.iter().zip(&mut timers) {
            timers.iter_mut().for_each(|timer| timer.run(text.as_bytes(), buffer));
        }
    }
    print!("{:<24} {:>6} {:>10}", titles[0], "bytes", titles[1]);
    readers.iter().for_each(|(reader, _)| print!(" {reader:>12}"));
    println!("{}", if N > 1 { "   ratio" } else { "" });
    for (Row { name, text, .. }, timers) in rows.iter().zip(&timers) {
        let answer = call(readers[0].1, text.as_bytes(), buffer);
        let result = match answer.number {
            0 => answer.count.to_string(),
            number => format!("refused {number}"),
        };
        print!("{name:<24} {:>6} {result:>10}", text.len());
        timers.iter().for_each(|timer| print!(" {:>12.1}", timer.best));
        match &timers[..] {
            [rust, archive] => println!(" {:>7.2}", archive.best / rust.best),
            _ => println!(),
        }
    }
    Ok(())
}
