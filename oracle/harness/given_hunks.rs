//! A merge of given hunks, in every mode.
use std::num::NonZeroU8;

use bstr::ByteSlice;

use super::{
    Conflict, ConflictStyle, Labels, Merge,
    utils::{Hunk, Side, tokens},
};
use crate::blob::Resolution;
use crate::cases::{Case, GivenHunk, Mode};

/// What the merge writes of `case` in each of the six modes, and its resolution.
pub fn run_all(case: &Case) -> Vec<(Mode, Resolution, Vec<u8>)> {
    let mut input = imara_diff::InternedInput::default();
    input.update_before(tokens(&case.ancestor));
    input.update_after(tokens(&case.current));
    let current_tokens = std::mem::take(&mut input.after);
    input.update_after(tokens(&case.other));

    let current = case.current_hunks.iter().map(|h| hunk(h, Side::Current));
    let other = case.other_hunks.iter().map(|h| hunk(h, Side::Other));
    let mut hunks: Vec<Hunk> = current.chain(other).collect();
    hunks.sort_by_key(|h| h.before.start);

    let merge = Merge {
        input: &input,
        current_tokens,
        hunks,
    };
    let labels = Labels {
        ancestor: case.labels.ancestor.as_deref().map(ByteSlice::as_bstr),
        current: case.labels.current.as_deref().map(ByteSlice::as_bstr),
        other: case.labels.other.as_deref().map(ByteSlice::as_bstr),
    };
    Mode::ALL
        .iter()
        .map(|mode| {
            let mut out = Vec::new();
            let resolution = merge.run(&mut out, labels, conflict(*mode, case.marker_size));
            (*mode, resolution, out)
        })
        .collect()
}

fn hunk(given: &GivenHunk, side: Side) -> Hunk {
    Hunk {
        before: given.before.clone(),
        after: given.after.clone(),
        side,
    }
}

fn conflict(mode: Mode, marker_size: NonZeroU8) -> Conflict {
    let keep = |style| Conflict::Keep { style, marker_size };
    match mode {
        Mode::Merge => keep(ConflictStyle::Merge),
        Mode::Diff3 => keep(ConflictStyle::Diff3),
        Mode::ZealousDiff3 => keep(ConflictStyle::ZealousDiff3),
        Mode::Ours => Conflict::ResolveWithOurs,
        Mode::Theirs => Conflict::ResolveWithTheirs,
        Mode::Union => Conflict::ResolveWithUnion,
    }
}
