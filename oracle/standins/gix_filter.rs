//! Names that stand beside the text merge in its module's file, and are never used.
#[derive(Clone)]
pub struct Pipeline;

pub mod attributes {
    pub mod search {
        #[derive(Clone)]
        pub struct Outcome;
    }
}
