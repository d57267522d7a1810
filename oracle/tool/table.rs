//! Answers as equations for the prover: what the definitions of crate `rules` make of a case is what was answered.
//! Each file is a module of proofs, its equations shown by computing both sides.
use std::{
    fmt::Write as _,
    fs,
    io::{BufRead, BufReader},
};

use crate::cases::{self, Case, GivenHunk, GivenLabels, Mode, lines};

/// Writes the answers in the file `answers` as modules `Compared1`, `Compared2`, .. of `per_file` cases each. Each module begins
/// with the text of the file `names`, which brings in the definitions.
pub fn write(answers: &str, names: &str, per_file: usize, folder: &str) -> Result<(), String> {
    let names = fs::read_to_string(names).map_err(|err| format!("{names}: {err}"))?;
    let file = fs::File::open(answers).map_err(|err| format!("{answers}: {err}"))?;
    let lines = BufReader::new(file)
        .lines()
        .map(|line| line.expect("a file of cases is text"));
    let cases: Vec<Case> = cases::reader(lines).collect::<Result<_, _>>()?;
    for (n, chunk) in cases.chunks(per_file).enumerate() {
        let mut text = names.clone();
        for case in chunk {
            write_case(&mut text, case);
        }
        let path = format!("{folder}/Compared{}.antt", n + 1);
        fs::write(&path, text).map_err(|err| format!("{path}: {err}"))?;
    }
    Ok(())
}

fn write_case(text: &mut String, case: &Case) {
    let name = &case.name;
    let (sheets, labels) = (format!("{name}-sheets"), format!("{name}-labels"));
    let (currents, others) = (format!("{name}-currents"), format!("{name}-others"));
    let mut define = |name: &str, kind: &str, value: String| {
        write!(text, "\nabbrev {name} : {kind}\n{name} = {value}\n").expect("a string takes all");
    };
    define(
        &sheets,
        "Sheets",
        three([&case.ancestor, &case.current, &case.other].map(|text| sheet(text))),
    );
    let GivenLabels {
        ancestor,
        current,
        other,
    } = &case.labels;
    define(&labels, "Labels", three([ancestor, current, other].map(label)));
    define(
        &currents,
        "List Hunk",
        list(case.current_hunks.iter().map(|h| hunk(h, "Current"))),
    );
    define(
        &others,
        "List Hunk",
        list(case.other_hunks.iter().map(|h| hunk(h, "Other"))),
    );

    let mut equation = |name: String, left: String, right: &str| {
        write!(text, "\n{name} : {left} ≡ {right}\n{name} = refl\n").expect("a string takes all");
    };
    for answer in &case.answers {
        let law = format!("{name}-{}", answer.mode.name());
        let mode = mode(answer.mode, case.marker_size.get());
        let rendering = format!("all_bytes (rendering {mode} {sheets} {labels} {currents} {others})");
        equation(format!("{law}-bytes"), rendering, &bytes(&answer.bytes));
        let verdict = format!("verdict {mode} {sheets} {currents} {others}");
        equation(format!("{law}-verdict"), verdict, answer.verdict.name());
    }
}

fn three([ancestor, current, other]: [String; 3]) -> String {
    format!("record {{ ancestor = {ancestor}; current = {current}; other = {other} }}")
}

fn mode(mode: Mode, marker_size: u8) -> String {
    match mode {
        Mode::Merge => format!("(Keep Merge {marker_size})"),
        Mode::Diff3 => format!("(Keep Diff3 {marker_size})"),
        Mode::ZealousDiff3 => format!("(Keep ZealousDiff3 {marker_size})"),
        Mode::Ours => "ResolveWithOurs".to_owned(),
        Mode::Theirs => "ResolveWithTheirs".to_owned(),
        Mode::Union => "ResolveWithUnion".to_owned(),
    }
}

fn hunk(GivenHunk { before, after }: &GivenHunk, side: &str) -> String {
    let span = |r: &std::ops::Range<u32>| format!("record {{ start = {}; end = {} }}", r.start, r.end);
    format!(
        "record {{ before = {}; after = {}; side = {side} }}",
        span(before),
        span(after)
    )
}

fn label(label: &Option<Vec<u8>>) -> String {
    match label {
        None => "None".to_owned(),
        Some(label) => format!("Some ({})", bytes(label)),
    }
}

fn sheet(text: &[u8]) -> String {
    list(lines(text).into_iter().map(|line| format!("({})", bytes(line))))
}

fn bytes(bytes: &[u8]) -> String {
    list(bytes.iter().map(u8::to_string))
}

/// `x ∷ (y ∷ [])`
fn list(items: impl Iterator<Item = String>) -> String {
    let items: Vec<String> = items.collect();
    let mut text = items.join(" ∷ (");
    match items.len() {
        0 => text.push_str("[]"),
        n => {
            text.push_str(" ∷ []");
            text.push_str(&")".repeat(n - 1));
        }
    }
    text
}
