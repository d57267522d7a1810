//! The part of `bstr` that the text merge uses.
use std::ops::Deref;

/// Bytes that are mostly text, borrowed.
#[derive(Debug, PartialEq, Eq)]
#[repr(transparent)]
pub struct BStr {
    bytes: [u8],
}

impl BStr {
    pub fn new(bytes: &[u8]) -> &BStr {
        // SAFETY: `BStr` is a transparent wrapper of `[u8]`.
        unsafe { &*(bytes as *const [u8] as *const BStr) }
    }
}

impl Deref for BStr {
    type Target = [u8];

    fn deref(&self) -> &[u8] {
        &self.bytes
    }
}

impl AsRef<[u8]> for BStr {
    fn as_ref(&self) -> &[u8] {
        &self.bytes
    }
}

impl<'a, const N: usize> From<&'a [u8; N]> for &'a BStr {
    fn from(bytes: &'a [u8; N]) -> &'a BStr {
        BStr::new(bytes)
    }
}

/// The same, owned. Only named by types beside the text merge.
#[derive(Debug, Default, Clone, PartialEq, Eq)]
pub struct BString {
    pub bytes: Vec<u8>,
}

pub trait ByteSlice {
    fn as_bstr(&self) -> &BStr;
}

impl ByteSlice for [u8] {
    fn as_bstr(&self) -> &BStr {
        BStr::new(self)
    }
}

pub trait ByteVec {
    fn push_str<B: AsRef<[u8]>>(&mut self, bytes: B);
}

impl ByteVec for Vec<u8> {
    fn push_str<B: AsRef<[u8]>>(&mut self, bytes: B) {
        self.extend_from_slice(bytes.as_ref());
    }
}
