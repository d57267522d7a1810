//! Where two files of answers to the same cases differ: how often, and at which smallest case.
use std::{
    collections::BTreeMap,
    fs::File,
    io::{BufRead, BufReader},
};

use crate::cases::{self, Answer, Case, Mode, lines};

/// What differs in a mode.
#[derive(Debug, Clone, Copy, PartialEq, Eq, PartialOrd, Ord)]
enum Differs {
    Bytes,
    Verdict,
}

struct Found {
    times: u64,
    smallest: Case,
    left: Answer,
    right: Answer,
}

/// The answers of the files `left` and `right`, case by case.
pub fn report(left: &str, right: &str) -> Result<(), String> {
    let mut found: BTreeMap<(Mode, Differs), Found> = BTreeMap::new();
    let (mut all, mut differing) = (0, 0);
    let (mut lefts, mut rights) = (read(left)?, read(right)?);
    loop {
        let (l, r) = match (lefts.next(), rights.next()) {
            (Some(l), Some(r)) => (l?, r?),
            (None, None) => break,
            _ => return Err("one file has more cases than the other".to_owned()),
        };
        if l.name != r.name {
            return Err(format!("not the same cases: {} and {}", l.name, r.name));
        }
        all += 1;
        differing += u64::from(l.answers != r.answers);
        for (a, b) in l.answers.iter().zip(&r.answers) {
            if a.bytes != b.bytes {
                note(&mut found, Differs::Bytes, &l, a, b);
            }
            if a.verdict != b.verdict {
                note(&mut found, Differs::Verdict, &l, a, b);
            }
        }
    }
    println!("# {differing} of {all} cases differ");
    for (
        (mode, what),
        Found {
            times,
            smallest,
            left,
            right,
        },
    ) in found
    {
        println!(
            "\n# {} differ in {}, {times} times; the smallest:",
            kind(what),
            mode.name()
        );
        let shown = |answer: Answer| Case {
            answers: vec![answer],
            ..smallest.clone()
        };
        print!("{}{}", shown(left), shown(right));
    }
    Ok(())
}

fn kind(what: Differs) -> &'static str {
    match what {
        Differs::Bytes => "bytes",
        Differs::Verdict => "verdicts",
    }
}

fn read(path: &str) -> Result<impl Iterator<Item = Result<Case, String>>, String> {
    let file = File::open(path).map_err(|err| format!("{path}: {err}"))?;
    Ok(cases::reader(
        BufReader::new(file)
            .lines()
            .map(|line| line.expect("a file of cases is text")),
    ))
}

/// Fewer lines, then fewer bytes, then fewer hunks, then fewer lines in the hunks.
fn size(case: &Case) -> [usize; 4] {
    let sheets = [&case.ancestor, &case.current, &case.other];
    let hunks = || case.current_hunks.iter().chain(&case.other_hunks);
    [
        sheets.iter().map(|text| lines(text).len()).sum(),
        sheets.iter().map(|text| text.len()).sum(),
        hunks().count(),
        hunks().map(|h| h.before.len() + h.after.len()).sum(),
    ]
}

fn note(found: &mut BTreeMap<(Mode, Differs), Found>, what: Differs, case: &Case, left: &Answer, right: &Answer) {
    let new = || Found {
        times: 0,
        smallest: case.clone(),
        left: left.clone(),
        right: right.clone(),
    };
    let entry = found.entry((left.mode, what)).or_insert_with(new);
    let times = entry.times + 1;
    if size(case) < size(&entry.smallest) {
        *entry = new();
    }
    entry.times = times;
}
