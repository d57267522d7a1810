//! Every case of a given number of lines that has a group, up to the names of the letters: no labels, marker size 7.
use std::ops::Range;

use crate::cases::{Case, GivenHunk};

/// Which cases are made.
#[derive(Clone, Copy)]
pub struct Wanted {
    /// The lines of the three sheets together.
    pub lines: usize,
    /// Lines end in carriage return and newline too, and last lines in nothing; else all end in newline.
    pub endings: bool,
    /// Each side's sheet is the ancestor with the side's hunks put in; else any sheet that has the hunks' lines.
    pub fitting: bool,
}

const ENDINGS: [&[u8]; 3] = [b"\n", b"\r\n", b""];

pub fn cases(wanted: Wanted) -> impl Iterator<Item = Case> {
    let cases = plans(wanted).flat_map(move |plan| {
        words(plan.different).into_iter().flat_map(move |word| {
            let ways = if wanted.endings {
                ENDINGS.len().pow(word.len() as u32)
            } else {
                1
            };
            let plan = plan.clone();
            (0..ways).filter_map(move |way| plan.case(&lines(&word, way)))
        })
    });
    cases.zip(1..).map(|(case, n): (Case, u64)| Case {
        name: format!("small-{n}"),
        ..case
    })
}

/// A case but for what its lines are: each line of a sheet is the number of one of so many lines.
#[derive(Clone)]
struct Plan {
    sheets: [Vec<usize>; 3],
    different: usize,
    current_hunks: Vec<GivenHunk>,
    other_hunks: Vec<GivenHunk>,
}

impl Plan {
    /// The case of these lines; nothing if a line but the last of a sheet lacks its newline.
    fn case(&self, lines: &[Vec<u8>]) -> Option<Case> {
        let open = |sheet: &[usize]| sheet.iter().rev().skip(1).any(|n| !lines[*n].ends_with(b"\n"));
        if self.sheets.iter().any(|sheet| open(sheet)) {
            return None;
        }
        let text = |sheet: &Vec<usize>| sheet.iter().flat_map(|n| lines[*n].clone()).collect();
        let mut case = Case::new("small");
        [case.ancestor, case.current, case.other] = [0, 1, 2].map(|n| text(&self.sheets[n]));
        case.current_hunks = self.current_hunks.clone();
        case.other_hunks = self.other_hunks.clone();
        Some(case)
    }
}

fn plans(wanted: Wanted) -> impl Iterator<Item = Plan> {
    (0..=wanted.lines).flat_map(move |ancestor| {
        let sides = sides(ancestor, wanted);
        let pairs = |current: Side| {
            let others = sides
                .iter()
                .filter(|other| ancestor + current.lines + other.lines == wanted.lines);
            let plans = others.filter_map(|other| plan(ancestor, &current, other));
            plans.collect::<Vec<Plan>>()
        };
        sides.iter().cloned().flat_map(pairs).collect::<Vec<Plan>>()
    })
}

/// The hunks of a side, its number of lines, and where they come from: a line of the ancestor, or a new one.
#[derive(Clone)]
struct Side {
    hunks: Vec<GivenHunk>,
    lines: usize,
    fitting: bool,
}

impl Side {
    /// The numbers of the side's lines, new ones from `next` on.
    fn sheet(&self, ancestor: usize, next: usize) -> Vec<usize> {
        let mut fresh = next..;
        if !self.fitting {
            return fresh.take(self.lines).collect();
        }
        let mut sheet = Vec::new();
        let mut done = 0;
        for GivenHunk { before, after } in &self.hunks {
            sheet.extend(done..before.start as usize);
            sheet.extend(fresh.by_ref().take(after.len()));
            done = before.end as usize;
        }
        sheet.extend(done..ancestor);
        sheet
    }
}

fn plan(ancestor: usize, current: &Side, other: &Side) -> Option<Plan> {
    if !current.hunks.iter().any(|c| other.hunks.iter().any(|o| c.touches(o))) {
        return None;
    }
    let current_sheet = current.sheet(ancestor, ancestor);
    let next = |sheet: &[usize], from: usize| sheet.iter().map(|n| n + 1).max().map_or(from, |n| n.max(from));
    let between = next(&current_sheet, ancestor);
    let other_sheet = other.sheet(ancestor, between);
    Some(Plan {
        different: next(&other_sheet, between),
        sheets: [(0..ancestor).collect(), current_sheet, other_sheet],
        current_hunks: current.hunks.clone(),
        other_hunks: other.hunks.clone(),
    })
}

/// Every side over an ancestor of so many lines.
fn sides(ancestor: usize, wanted: Wanted) -> Vec<Side> {
    let most = wanted.lines - ancestor;
    if wanted.fitting {
        let lists = hunk_lists(ancestor as u32, most as u32, |list, before| {
            let last = list.last().map_or((0, 0), |h| (h.before.end, h.after.end));
            let start = last.1 + (before.start - last.0);
            start..start
        });
        let side = |hunks: Vec<GivenHunk>| {
            let gone: usize = hunks.iter().map(|h| h.before.len()).sum();
            let come: usize = hunks.iter().map(|h| h.after.len()).sum();
            let lines = ancestor - gone + come;
            (lines <= most).then_some(Side {
                hunks,
                lines,
                fitting: true,
            })
        };
        return lists.into_iter().filter_map(side).collect();
    }
    let of_lines = |lines: usize| {
        let lists = hunk_lists(ancestor as u32, lines as u32, |list, _| {
            list.last().map_or(0, |h| h.after.end)..lines as u32
        });
        lists.into_iter().map(move |hunks| Side {
            hunks,
            lines,
            fitting: false,
        })
    };
    (0..=most).flat_map(of_lines).collect()
}

/// Every list of hunks that a table takes, an after range starting within the range that `starts` tells.
fn hunk_lists(
    ancestor: u32,
    lines: u32,
    starts: impl Fn(&[GivenHunk], &Range<u32>) -> Range<u32>,
) -> Vec<Vec<GivenHunk>> {
    let mut lists: Vec<Vec<GivenHunk>> = vec![Vec::new()];
    let mut done = 0;
    while done < lists.len() {
        let list = lists[done].clone();
        let from = list.last().map_or(0, |h| h.before.end + 1);
        for before in (from..=ancestor).flat_map(|start| (start..=ancestor).map(move |end| start..end)) {
            let Range { start, end } = starts(&list, &before);
            for after in (start..=end).flat_map(|start| (start..=lines).map(move |end| start..end)) {
                if !(before.is_empty() && after.is_empty()) {
                    let hunk = GivenHunk {
                        before: before.clone(),
                        after,
                    };
                    lists.push([list.as_slice(), &[hunk]].concat());
                }
            }
        }
        done += 1;
    }
    lists
}

/// Words of so many letters, each letter at most one behind the greatest before it.
fn words(letters: usize) -> Vec<Vec<u8>> {
    let mut words = vec![Vec::new()];
    for _ in 0..letters {
        let longer = |word: &Vec<u8>| {
            let next = word.iter().max().map_or(b'a', |c| c + 1);
            let word = word.clone();
            (b'a'..=next).map(move |c| [word.as_slice(), &[c]].concat())
        };
        words = words.iter().flat_map(longer).collect();
    }
    words
}

/// A line of each letter, its ending by a digit of `way`.
fn lines(word: &[u8], way: usize) -> Vec<Vec<u8>> {
    let mut way = way;
    let mut line = |letter: &u8| {
        let ending = ENDINGS[way % ENDINGS.len()];
        way /= ENDINGS.len();
        [&[*letter], ending].concat()
    };
    word.iter().map(&mut line).collect()
}
