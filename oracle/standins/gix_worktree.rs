//! A name that stands beside the text merge in its module's file, and is never used.
#[derive(Clone)]
pub struct Stack;
