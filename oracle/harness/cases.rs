//! The text format of cases and their answers; README.md beside this folder describes it.
use std::{fmt, num::NonZeroU8, ops::Range};

#[derive(Debug, Clone, Copy, PartialEq, Eq, PartialOrd, Ord)]
pub enum Mode {
    Merge,
    Diff3,
    ZealousDiff3,
    Ours,
    Theirs,
    Union,
}

impl Mode {
    pub const ALL: [Mode; 6] = [
        Mode::Merge,
        Mode::Diff3,
        Mode::ZealousDiff3,
        Mode::Ours,
        Mode::Theirs,
        Mode::Union,
    ];

    pub fn name(self) -> &'static str {
        match self {
            Mode::Merge => "merge",
            Mode::Diff3 => "diff3",
            Mode::ZealousDiff3 => "zdiff3",
            Mode::Ours => "ours",
            Mode::Theirs => "theirs",
            Mode::Union => "union",
        }
    }
}

#[derive(Debug, Clone, Copy, PartialEq, Eq)]
pub enum Verdict {
    Complete,
    CompleteWithAutoResolvedConflict,
    Conflict,
}

impl Verdict {
    pub const ALL: [Verdict; 3] = [
        Verdict::Complete,
        Verdict::CompleteWithAutoResolvedConflict,
        Verdict::Conflict,
    ];

    pub fn name(self) -> &'static str {
        match self {
            Verdict::Complete => "Complete",
            Verdict::CompleteWithAutoResolvedConflict => "CompleteWithAutoResolvedConflict",
            Verdict::Conflict => "Conflict",
        }
    }
}

#[derive(Debug, Clone, PartialEq, Eq)]
pub struct GivenHunk {
    pub before: Range<u32>,
    pub after: Range<u32>,
}

impl GivenHunk {
    /// Whether neither starts behind the other's end, in the ancestor.
    pub fn touches(&self, other: &GivenHunk) -> bool {
        self.before.start <= other.before.end && other.before.start <= self.before.end
    }
}

#[derive(Debug, Clone, Default)]
pub struct GivenLabels {
    pub ancestor: Option<Vec<u8>>,
    pub current: Option<Vec<u8>>,
    pub other: Option<Vec<u8>>,
}

#[derive(Debug, Clone, PartialEq, Eq)]
pub struct Answer {
    pub mode: Mode,
    pub verdict: Verdict,
    pub bytes: Vec<u8>,
}

#[derive(Debug, Clone)]
pub struct Case {
    /// The comments and empty lines ahead of the case.
    pub notes: Vec<String>,
    pub name: String,
    pub ancestor: Vec<u8>,
    pub current: Vec<u8>,
    pub other: Vec<u8>,
    pub current_hunks: Vec<GivenHunk>,
    pub other_hunks: Vec<GivenHunk>,
    pub labels: GivenLabels,
    pub marker_size: NonZeroU8,
    pub answers: Vec<Answer>,
}

pub const USUAL_MARKER_SIZE: NonZeroU8 = NonZeroU8::new(7).unwrap();

impl Case {
    pub fn new(name: &str) -> Case {
        Case {
            notes: Vec::new(),
            name: name.to_owned(),
            ancestor: Vec::new(),
            current: Vec::new(),
            other: Vec::new(),
            current_hunks: Vec::new(),
            other_hunks: Vec::new(),
            labels: GivenLabels::default(),
            marker_size: USUAL_MARKER_SIZE,
            answers: Vec::new(),
        }
    }

    /// What of a hunk table's rules the hunks do not keep, if anything.
    pub fn broken_rule(&self) -> Option<String> {
        let ancestor = line_count(&self.ancestor);
        let sides = [
            ("current", &self.current_hunks, line_count(&self.current)),
            ("other", &self.other_hunks, line_count(&self.other)),
        ];
        sides
            .into_iter()
            .find_map(|(side, hunks, lines)| Some(format!("{side}: {}", broken_in(hunks, ancestor, lines)?)))
    }
}

fn broken_in(hunks: &[GivenHunk], ancestor: u32, lines: u32) -> Option<&'static str> {
    let out_of = |range: &Range<u32>, lines: u32| range.start > range.end || range.end > lines;
    for h in hunks {
        if out_of(&h.before, ancestor) || out_of(&h.after, lines) {
            return Some("a range is not within its sheet");
        }
        if h.before.is_empty() && h.after.is_empty() {
            return Some("both ranges of a hunk are empty");
        }
    }
    let apart = |a: &GivenHunk, b: &GivenHunk| b.before.start > a.before.end && b.after.start >= a.after.end;
    if hunks.windows(2).any(|pair| !apart(&pair[0], &pair[1])) {
        return Some("a hunk does not leave an ancestor line to the one before it, or overlaps it");
    }
    None
}

/// The lines of a text: each ends behind its newline, only the last may lack it.
pub fn lines(text: &[u8]) -> Vec<&[u8]> {
    text.split_inclusive(|b| *b == b'\n').collect()
}

fn line_count(text: &[u8]) -> u32 {
    lines(text).len() as u32
}

impl fmt::Display for Case {
    fn fmt(&self, f: &mut fmt::Formatter<'_>) -> fmt::Result {
        for note in &self.notes {
            writeln!(f, "{note}")?;
        }
        writeln!(f, "case {}", self.name)?;
        writeln!(f, "ancestor {}", quoted(&self.ancestor))?;
        writeln!(f, "current {}", quoted(&self.current))?;
        writeln!(f, "other {}", quoted(&self.other))?;
        for (side, hunks) in [("current", &self.current_hunks), ("other", &self.other_hunks)] {
            for GivenHunk { before, after } in hunks {
                writeln!(
                    f,
                    "hunk {side} {} {} {} {}",
                    before.start, before.end, after.start, after.end
                )?;
            }
        }
        let GivenLabels {
            ancestor,
            current,
            other,
        } = &self.labels;
        for (sheet, label) in [("ancestor", ancestor), ("current", current), ("other", other)] {
            if let Some(label) = label {
                writeln!(f, "label {sheet} {}", quoted(label))?;
            }
        }
        writeln!(f, "size {}", self.marker_size)?;
        for Answer { mode, verdict, bytes } in &self.answers {
            writeln!(f, "answer {} {} {}", mode.name(), verdict.name(), quoted(bytes))?;
        }
        writeln!(f, "end")
    }
}

/// Bytes between quotes: printable ones as they are, `\n`, `\r`, `\\`, `\"`, any other as `\xHH`.
pub fn quoted(bytes: &[u8]) -> String {
    let mut text = String::from("\"");
    for b in bytes {
        match b {
            b'\n' => text.push_str("\\n"),
            b'\r' => text.push_str("\\r"),
            b'\\' => text.push_str("\\\\"),
            b'"' => text.push_str("\\\""),
            b' '..=b'~' => text.push(*b as char),
            _ => text.push_str(&format!("\\x{b:02x}")),
        }
    }
    text.push('"');
    text
}

fn unquoted(text: &str) -> Result<Vec<u8>, String> {
    let refused = || format!("not bytes between quotes: {text}");
    let inner = text
        .strip_prefix('"')
        .and_then(|t| t.strip_suffix('"'))
        .ok_or_else(refused)?;
    let mut bytes = Vec::new();
    let mut rest = inner.bytes();
    while let Some(b) = rest.next() {
        if b != b'\\' {
            if b == b'"' || !(b' '..=b'~').contains(&b) {
                return Err(refused());
            }
            bytes.push(b);
            continue;
        }
        bytes.push(match rest.next().ok_or_else(refused)? {
            b'n' => b'\n',
            b'r' => b'\r',
            b'\\' => b'\\',
            b'"' => b'"',
            b'x' => {
                let mut digit = || (rest.next()? as char).to_digit(16);
                let high = digit().ok_or_else(refused)?;
                let low = digit().ok_or_else(refused)?;
                (high * 16 + low) as u8
            }
            _ => return Err(refused()),
        });
    }
    Ok(bytes)
}

fn is_note(line: &str) -> bool {
    line.is_empty() || line.starts_with('#')
}

/// The cases in lines of text, one after another.
pub fn reader(mut lines: impl Iterator<Item = String>) -> impl Iterator<Item = Result<Case, String>> {
    std::iter::from_fn(move || {
        let mut notes = Vec::new();
        let mut first = lines.next()?;
        while is_note(&first) {
            notes.push(std::mem::replace(&mut first, lines.next()?));
        }
        let Some(name) = first.strip_prefix("case ") else {
            return Some(Err(format!("a case begins with `case NAME`, not with: {first}")));
        };
        let case = read_case(name, &mut lines).map_err(|err| format!("case {name}: {err}"));
        Some(case.map(|case| Case { notes, ..case }))
    })
}

fn read_case(name: &str, lines: &mut impl Iterator<Item = String>) -> Result<Case, String> {
    let mut case = Case::new(name);
    loop {
        let line = lines.next().ok_or("no `end`")?;
        let (word, rest) = line.split_once(' ').unwrap_or((line.as_str(), ""));
        match word {
            "ancestor" => case.ancestor = unquoted(rest)?,
            "current" => case.current = unquoted(rest)?,
            "other" => case.other = unquoted(rest)?,
            "hunk" => read_hunk(&mut case, rest)?,
            "label" => read_label(&mut case.labels, rest)?,
            "size" => case.marker_size = rest.parse().map_err(|_| format!("no marker size: {rest}"))?,
            "answer" => case.answers.push(read_answer(rest)?),
            "end" => break,
            _ if is_note(&line) => {}
            _ => return Err(format!("not understood: {line}")),
        }
    }
    match case.broken_rule() {
        None => Ok(case),
        Some(rule) => Err(rule),
    }
}

fn read_hunk(case: &mut Case, words: &str) -> Result<(), String> {
    let refused = || format!("not a hunk: {words}");
    let (side, numbers) = words.split_once(' ').ok_or_else(refused)?;
    let numbers: Result<Vec<u32>, _> = numbers.split(' ').map(str::parse).collect();
    let [a, b, c, d] = numbers.ok().and_then(|n| n.try_into().ok()).ok_or_else(refused)?;
    let hunk = GivenHunk {
        before: a..b,
        after: c..d,
    };
    match side {
        "current" => case.current_hunks.push(hunk),
        "other" => case.other_hunks.push(hunk),
        _ => return Err(refused()),
    }
    Ok(())
}

fn read_label(labels: &mut GivenLabels, words: &str) -> Result<(), String> {
    let refused = || format!("not a label: {words}");
    let (sheet, label) = words.split_once(' ').ok_or_else(refused)?;
    let label = Some(unquoted(label)?);
    match sheet {
        "ancestor" => labels.ancestor = label,
        "current" => labels.current = label,
        "other" => labels.other = label,
        _ => return Err(refused()),
    }
    Ok(())
}

fn read_answer(words: &str) -> Result<Answer, String> {
    let refused = || format!("not an answer: {words}");
    let mut parts = words.splitn(3, ' ');
    let mut part = || parts.next().ok_or_else(refused);
    let (mode, verdict, bytes) = (part()?, part()?, part()?);
    Ok(Answer {
        mode: Mode::ALL.into_iter().find(|m| m.name() == mode).ok_or_else(refused)?,
        verdict: Verdict::ALL
            .into_iter()
            .find(|v| v.name() == verdict)
            .ok_or_else(refused)?,
        bytes: unquoted(bytes)?,
    })
}
