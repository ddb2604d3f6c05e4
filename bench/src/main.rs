//! cases HEX LISTING | listings HEX | texts SEED N | compare SEED N | rows | bench

#[cfg(feature = "archive")]
mod archive;
mod bench;
#[cfg(feature = "archive")]
mod compare;

use rule_bench::{listing, texts::Texts};
use std::io::{self, Write};
use std::process::ExitCode;

fn main() -> ExitCode {
    let args: Vec<String> = std::env::args().skip(1).collect();
    let args: Vec<&str> = args.iter().map(String::as_str).collect();
    let result = match args[..] {
        ["cases", hex, recorded] => cases(hex, recorded),
        ["listings", hex] => print_listings(hex),
        ["texts", seed, n] => numbers(seed, n).and_then(|(seed, n)| print_texts(seed, n)),
        #[cfg(feature = "archive")]
        ["compare", seed, n] => numbers(seed, n).and_then(|(seed, n)| compare::run(seed, n)),
        ["rows"] => bench::print_rows(),
        ["bench"] => bench::run(),
        _ => {
            Err("usage: cases HEX LISTING | listings HEX | texts SEED N | compare SEED N | rows | bench"
                .into())
        }
    };
    match result {
        Ok(()) => ExitCode::SUCCESS,
        Err(message) => {
            eprintln!("{message}");
            ExitCode::FAILURE
        }
    }
}

fn numbers(seed: &str, n: &str) -> Result<(u64, u64), String> {
    match (seed.parse(), n.parse()) {
        (Ok(seed), Ok(n)) => Ok((seed, n)),
        _ => Err("SEED and N are numbers".into()),
    }
}

/// Compares the listing of each text with the recorded one, with canonical
/// texts if the file has any.
fn cases(hex: &str, recorded: &str) -> Result<(), String> {
    let (hex, recorded) = (file(hex)?, file(recorded)?);
    let listing_of = if recorded.contains("\ntidy ") { listing::of } else { listing::reading };
    let recorded = listing::split(&recorded);
    let total = hex.lines().count();
    if recorded.len() != total {
        return Err(format!("{total} texts, {} listings", recorded.len()));
    }
    let mut agree = 0;
    for (number, (line, expected)) in hex.lines().zip(&recorded).enumerate() {
        let text = text(number, line)?;
        let found = listing_of(&text);
        if found == *expected {
            agree += 1;
        } else {
            let text = String::from_utf8_lossy(&text);
            println!("line {}: {text}\nrecorded\n{expected}found\n{found}", number + 1);
        }
    }
    println!("{agree} of {total} agree");
    if agree == total { Ok(()) } else { Err("not all agree".into()) }
}

/// Prints the listing of each text, with its canonical text.
fn print_listings(hex: &str) -> Result<(), String> {
    for (number, line) in file(hex)?.lines().enumerate() {
        print!("{}", listing::of(&text(number, line)?));
    }
    Ok(())
}

fn file(path: &str) -> Result<String, String> {
    std::fs::read_to_string(path).map_err(|e| format!("{path}: {e}"))
}

/// The text of a line, which has a number from 0 on.
fn text(number: usize, line: &str) -> Result<Vec<u8>, String> {
    listing::from_hex(line).ok_or(format!("line {}: not hexadecimal", number + 1))
}

fn print_texts(seed: u64, n: u64) -> Result<(), String> {
    let mut out = io::BufWriter::new(io::stdout().lock());
    let mut texts = Texts::new(seed);
    for _ in 0..n {
        writeln!(out, "{}", listing::to_hex(&texts.next())).map_err(|e| e.to_string())?;
    }
    out.flush().map_err(|e| e.to_string())
}
