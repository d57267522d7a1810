//! Makes cases, compares answers, writes answers as equations, and mends a source.
#[path = "../harness/cases.rs"]
#[allow(dead_code)]
mod cases;
mod differ;
mod every;
mod mend;
mod random;
mod table;

use std::io::{self, Write};

const USAGE: &str = "oracle-tool random SEED COUNT          cases at random
oracle-tool every LINES [endings] [fitting]   every case of so many lines in all that has a group
oracle-tool differ FILE FILE           where two files of answers differ, the smallest case of each mode and kind
oracle-tool table FILE NAMES PER_FILE DIR   answers as equations for the prover
oracle-tool mend ROOT FILE..           replace texts below ROOT";

fn main() -> Result<(), String> {
    let words: Vec<String> = std::env::args().skip(1).collect();
    let words: Vec<&str> = words.iter().map(String::as_str).collect();
    match words.as_slice() {
        ["random", seed, count] => print_all(random::cases(number(seed)?, number(count)?)),
        ["every", lines, how @ ..] => print_all(every::cases(every::Wanted {
            lines: number(lines)? as usize,
            endings: how.contains(&"endings"),
            fitting: how.contains(&"fitting"),
        })),
        ["differ", left, right] => differ::report(left, right),
        ["table", answers, names, per_file, folder] => table::write(answers, names, number(per_file)? as usize, folder),
        ["mend", root, mends @ ..] => mends.iter().try_for_each(|file| mend::apply(root, file)),
        _ => Err(USAGE.to_owned()),
    }
}

fn number(word: &str) -> Result<u64, String> {
    word.parse().map_err(|_| format!("not a number: {word}"))
}

fn print_all(cases: impl Iterator<Item = cases::Case>) -> Result<(), String> {
    let mut stdout = io::BufWriter::new(io::stdout().lock());
    for case in cases {
        write!(stdout, "{case}").map_err(|err| err.to_string())?;
    }
    stdout.flush().map_err(|err| err.to_string())
}
