//! The text merge, as its files have it, with one module more: the fields of `Merge` are private to it.
pub mod text {
    include!("builtin_driver/text/mod.rs");

    pub mod given_hunks;
}
