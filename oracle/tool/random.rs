//! Small cases at random. Few different lines, so that they repeat; hunks that a table takes, whether or not they
//! come of a true diff.
use std::num::NonZeroU8;

use crate::cases::{Case, GivenHunk};

/// Numbers from a seed (splitmix64): the same on every machine.
struct Dice(u64);

impl Dice {
    fn next(&mut self) -> u64 {
        self.0 = self.0.wrapping_add(0x9e37_79b9_7f4a_7c15);
        let mut x = self.0;
        x = (x ^ (x >> 30)).wrapping_mul(0xbf58_476d_1ce4_e5b9);
        x = (x ^ (x >> 27)).wrapping_mul(0x94d0_49bb_1331_11eb);
        x ^ (x >> 31)
    }

    /// One of 0, 1, .., n − 1.
    fn below(&mut self, n: u64) -> u64 {
        self.next() % n
    }

    fn one_in(&mut self, n: u64) -> bool {
        self.below(n) == 0
    }

    fn pick<T: Copy>(&mut self, things: &[T]) -> T {
        things[self.below(things.len() as u64) as usize]
    }
}

type Line = &'static [u8];

/// The lines that a case may have, some more often than others: letters alone, or also carriage returns and empty lines.
const ALPHABETS: [&[Line]; 7] = [
    &[b"a\n", b"b\n"],
    &[b"a\n", b"b\n", b"c\n"],
    &[b"a\n", b"a\n", b"a\n", b"b\n"],
    &[b"a\r\n", b"a\r\n", b"b\n"],
    &[b"a\r\n", b"a\n", b"\n"],
    &[b"a\n", b"a\n", b"a\r\n", b"\n"],
    &[b"a\n", b"\r\n", b"\n", b"b\r\n"],
];

pub fn cases(seed: u64, count: u64) -> impl Iterator<Item = Case> {
    let mut dice = Dice(seed);
    (1..=count).map(move |n| {
        loop {
            let case = one(&mut dice, &format!("random-{seed}-{n}"));
            if case.broken_rule().is_none() && (has_group(&case) || dice.one_in(8)) {
                break case;
            }
        }
    })
}

fn has_group(case: &Case) -> bool {
    case.current_hunks
        .iter()
        .any(|c| case.other_hunks.iter().any(|o| c.touches(o)))
}

fn one(dice: &mut Dice, name: &str) -> Case {
    let alphabet = dice.pick(&ALPHABETS);
    let ancestor = some_lines(dice, alphabet, 6);
    let (current, current_hunks) = side(dice, alphabet, &ancestor);
    let (other, other_hunks) = side(dice, alphabet, &ancestor);
    let mut case = Case::new(name);
    case.ancestor = text(dice, &ancestor);
    case.current = text(dice, &current);
    case.other = text(dice, &other);
    case.current_hunks = current_hunks;
    case.other_hunks = other_hunks;
    case.labels.ancestor = label(dice);
    case.labels.current = label(dice);
    case.labels.other = label(dice);
    let size = dice.pick(&[1, 1, 2, 3, 7]);
    case.marker_size = NonZeroU8::new(size).expect("sizes above are not zero");
    case
}

fn some_lines(dice: &mut Dice, alphabet: &[Line], most: u64) -> Vec<Line> {
    (0..dice.below(most + 1)).map(|_| dice.pick(alphabet)).collect()
}

/// A side's sheet and hunks: the hunks put into the ancestor, or, one time in three, any sheet and any hunks.
fn side(dice: &mut Dice, alphabet: &[Line], ancestor: &[Line]) -> (Vec<Line>, Vec<GivenHunk>) {
    if dice.one_in(3) {
        let sheet = some_lines(dice, alphabet, 6);
        let hunks = any_hunks(dice, ancestor.len() as u32, sheet.len() as u32);
        return (sheet, hunks);
    }
    let mut sheet = Vec::new();
    let mut hunks = Vec::new();
    let mut done = 0;
    while let Some(before) = next_range(dice, done, hunks.is_empty(), ancestor.len() as u32) {
        sheet.extend_from_slice(&ancestor[done as usize..before.start as usize]);
        let start = sheet.len() as u32;
        sheet.extend(changed(
            dice,
            alphabet,
            &ancestor[before.start as usize..before.end as usize],
        ));
        let after = start..sheet.len() as u32;
        done = before.end;
        if before.is_empty() && after.is_empty() {
            continue;
        }
        hunks.push(GivenHunk { before, after });
    }
    sheet.extend_from_slice(&ancestor[done as usize..]);
    (sheet, hunks)
}

/// What stands in the place of some lines: new ones, or the same with some left out and some doubled.
fn changed(dice: &mut Dice, alphabet: &[Line], lines: &[Line]) -> Vec<Line> {
    if lines.is_empty() || dice.one_in(2) {
        let most = length(dice);
        return some_lines(dice, alphabet, most);
    }
    let mut times = || dice.pick(&[0, 1, 1, 1, 2, 2]);
    lines.iter().flat_map(|line| vec![*line; times()]).collect()
}

fn any_hunks(dice: &mut Dice, ancestor: u32, lines: u32) -> Vec<GivenHunk> {
    let mut hunks: Vec<GivenHunk> = Vec::new();
    let (mut done, mut shown) = (0, 0);
    while let Some(before) = next_range(dice, done, hunks.is_empty(), ancestor) {
        let start = lines.min(shown + dice.below(2) as u32);
        let after = start..lines.min(start + length(dice) as u32);
        (done, shown) = (before.end, after.end);
        if !(before.is_empty() && after.is_empty()) {
            hunks.push(GivenHunk { before, after });
        }
    }
    hunks
}

/// A range behind `done`, with a line between unless it is the first; nothing at times, or where there is no room.
fn next_range(dice: &mut Dice, done: u32, first: bool, lines: u32) -> Option<std::ops::Range<u32>> {
    let start = done + if first { 0 } else { 1 } + dice.below(2) as u32;
    if start > lines || dice.one_in(if first { 8 } else { 3 }) {
        return None;
    }
    Some(start..lines.min(start + length(dice) as u32))
}

/// How many lines a range has at most: mostly few.
fn length(dice: &mut Dice) -> u64 {
    dice.pick(&[0, 0, 1, 1, 1, 2, 2, 3, 5])
}

/// The lines as one text; at times the last lacks its newline, and may then end in a bare carriage return.
fn text(dice: &mut Dice, lines: &[Line]) -> Vec<u8> {
    let mut bytes = lines.concat();
    if dice.one_in(3) && lines.last().is_some_and(|line| line.len() > 1) {
        bytes.pop();
    }
    bytes
}

fn label(dice: &mut Dice) -> Option<Vec<u8>> {
    dice.pick::<Option<&[u8]>>(&[None, None, Some(b""), Some(b"x"), Some(b"<")])
        .map(<[u8]>::to_vec)
}
