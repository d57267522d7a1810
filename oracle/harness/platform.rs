//! Names that stand beside the text merge in its module's file, and are never used.
#[derive(Clone)]
pub struct Resource;

#[derive(Clone)]
pub struct Options;

#[derive(Clone, Copy)]
pub struct DriverChoice;

#[derive(Clone, Copy)]
pub struct ResourceRef<'a> {
    pub data: &'a [u8],
}

pub mod merge {
    #[derive(Clone, Copy)]
    pub struct Options;
}
