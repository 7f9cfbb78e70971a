//! What type_formatter.rs takes from the crates `range_collections` and `bitflags`.
use std::ops::{BitOrAssign, Range, RangeFrom, Sub};

pub mod range_set {
    use std::ops::{Range, RangeFrom};

    pub enum RangeSetRange<'a, T> {
        Range(Range<&'a T>),
        RangeFrom(RangeFrom<&'a T>),
    }
}

/// Numbers, as ranges that do not overlap. An end of `None` is no end.
pub struct RangeSet2<T>(Vec<(T, Option<T>)>);

pub type RangeSet<T> = RangeSet2<T>;

impl RangeSet2<u32> {
    pub fn empty() -> Self {
        RangeSet2(Vec::new())
    }

    pub fn iter(&self) -> impl Iterator<Item = range_set::RangeSetRange<'_, u32>> {
        self.0.iter().map(|(start, end)| match end {
            Some(end) => range_set::RangeSetRange::Range(start..end),
            None => range_set::RangeSetRange::RangeFrom(start..),
        })
    }
}

impl From<Range<u32>> for RangeSet2<u32> {
    fn from(range: Range<u32>) -> Self {
        RangeSet2(vec![(range.start, Some(range.end))])
    }
}

impl From<RangeFrom<u32>> for RangeSet2<u32> {
    fn from(range: RangeFrom<u32>) -> Self {
        RangeSet2(vec![(range.start, None)])
    }
}

impl Sub for &RangeSet2<u32> {
    type Output = RangeSet2<u32>;

    fn sub(self, other: Self) -> RangeSet2<u32> {
        let mut left = self.0.clone();
        for (start, end) in &other.0 {
            left = left.into_iter().flat_map(|range| without(range, *start, *end)).collect();
        }
        RangeSet2(left)
    }
}

fn without((start, end): (u32, Option<u32>), from: u32, to: Option<u32>) -> Vec<(u32, Option<u32>)> {
    let before = (start, Some(end.map_or(from, |end| end.min(from))));
    let behind = to.map(|to| (start.max(to), end));
    let held = |range: &(u32, Option<u32>)| range.1.map_or(true, |end| range.0 < end);
    [Some(before), behind].into_iter().flatten().filter(held).collect()
}

impl BitOrAssign for RangeSet2<u32> {
    #[allow(clippy::suspicious_op_assign_impl)]
    fn bitor_assign(&mut self, other: Self) {
        let more = &other - self;
        self.0.extend(more.0);
    }
}

#[macro_export]
macro_rules! bitflags {
    ($(#[$outer:meta])* pub struct $name:ident: u32 { $($(#[$inner:meta])* const $flag:ident = $bits:expr;)* }) => {
        $(#[$outer])*
        pub struct $name(u32);

        impl $name {
            $($(#[$inner])* pub const $flag: Self = Self($bits);)*

            pub fn from_bits_retain(bits: u32) -> Self {
                Self(bits)
            }

            pub fn bits(self) -> u32 {
                self.0
            }

            pub fn intersects(self, other: Self) -> bool {
                self.0 & other.0 != 0
            }
        }

        impl std::ops::BitOr for $name {
            type Output = Self;

            fn bitor(self, other: Self) -> Self {
                Self(self.0 | other.0)
            }
        }
    };
}
