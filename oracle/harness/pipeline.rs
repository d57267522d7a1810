//! Names that stand beside the text merge in its module's file, and are never used.
#[derive(Clone)]
pub struct WorktreeRoots;

#[derive(Clone)]
pub struct Options;

#[derive(Clone)]
pub struct Mode;
