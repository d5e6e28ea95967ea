//! Takes the fields of a layout of docs/ABI.md one after another.

use crate::chunk::Chunk;
use crate::four_cc::FourCc;

/// What is left of a layout. Every layout has a fixed length, and its reader takes all of it.
pub struct Fields<'a>(&'a [u8]);

impl<'a> Fields<'a> {
    pub fn new(layout: &'a [u8]) -> Self {
        Fields(layout)
    }

    pub fn bytes<const N: usize>(&mut self) -> [u8; N] {
        let (first, rest) = self.0.split_first_chunk().expect("a field of the layout");
        self.0 = rest;
        *first
    }

    pub fn byte(&mut self) -> u8 {
        let [byte] = self.bytes();
        byte
    }

    pub fn flag(&mut self) -> bool {
        self.byte() != 0
    }

    pub fn code(&mut self) -> FourCc {
        FourCc(self.bytes())
    }

    pub fn u32(&mut self) -> u32 {
        u32::from_be_bytes(self.bytes())
    }

    pub fn u64(&mut self) -> u64 {
        u64::from_be_bytes(self.bytes())
    }

    /// A position or a length. It is below 2^48, so it fits.
    pub fn size(&mut self) -> usize {
        self.u64() as usize
    }

    /// SPAN: position, length.
    pub fn span(&mut self) -> Chunk {
        Chunk {
            at: self.size(),
            len: self.size(),
        }
    }

    /// CHUNK: whether it is there, then as SPAN.
    pub fn chunk(&mut self) -> Option<Chunk> {
        self.option(Self::span)
    }

    /// OPTION: whether it is there, then its fields, which are taken in either case.
    pub fn option<T>(&mut self, fields: impl FnOnce(&mut Self) -> T) -> Option<T> {
        let present = self.flag();
        let value = fields(self);
        present.then_some(value)
    }

    /// Every byte of the layout must have been taken.
    pub fn finish(self) {
        assert!(self.0.is_empty(), "{} bytes are left", self.0.len());
    }
}
