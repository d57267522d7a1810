//! Reads cases and writes them again with the answers of the text merge in all six modes.
#[allow(dead_code, unused)]
mod blob;
#[allow(dead_code)]
mod cases;

use std::io::{self, BufRead, BufWriter, Write};

use blob::{Resolution, builtin_driver::text::given_hunks::run_all};
use cases::{Answer, Case, Verdict};

fn main() -> Result<(), String> {
    let stdin = io::stdin().lock();
    let mut stdout = BufWriter::new(io::stdout().lock());
    for case in cases::reader(stdin.lines().map(|line| line.expect("standard input is text"))) {
        let case = answered(case?);
        write!(stdout, "{case}").map_err(|err| err.to_string())?;
    }
    stdout.flush().map_err(|err| err.to_string())
}

fn answered(mut case: Case) -> Case {
    case.answers = run_all(&case)
        .into_iter()
        .map(|(mode, resolution, bytes)| Answer {
            mode,
            verdict: verdict(resolution),
            bytes,
        })
        .collect();
    case
}

fn verdict(resolution: Resolution) -> Verdict {
    match resolution {
        Resolution::Complete => Verdict::Complete,
        Resolution::CompleteWithAutoResolvedConflict => Verdict::CompleteWithAutoResolvedConflict,
        Resolution::Conflict => Verdict::Conflict,
    }
}
