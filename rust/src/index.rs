//! Indexes: two counters over two streams. One never serves as the other.
use std::fmt;

/// The index of a record of the type stream, or, below 0x1000, of a primitive type.
#[derive(Clone, Copy, Debug, Default, PartialEq, Eq, PartialOrd, Ord, Hash)]
#[repr(transparent)]
pub struct TypeIndex(pub u32);

/// The index of a record of the id stream.
#[derive(Clone, Copy, Debug, Default, PartialEq, Eq, PartialOrd, Ord, Hash)]
#[repr(transparent)]
pub struct IdIndex(pub u32);

impl From<u32> for TypeIndex {
    fn from(index: u32) -> Self {
        TypeIndex(index)
    }
}

impl From<TypeIndex> for u32 {
    fn from(index: TypeIndex) -> Self {
        index.0
    }
}

impl From<u32> for IdIndex {
    fn from(index: u32) -> Self {
        IdIndex(index)
    }
}

impl From<IdIndex> for u32 {
    fn from(index: IdIndex) -> Self {
        index.0
    }
}

impl fmt::Display for TypeIndex {
    fn fmt(&self, f: &mut fmt::Formatter<'_>) -> fmt::Result {
        write!(f, "{:#x}", self.0)
    }
}

impl fmt::Display for IdIndex {
    fn fmt(&self, f: &mut fmt::Formatter<'_>) -> fmt::Result {
        write!(f, "{:#x}", self.0)
    }
}
