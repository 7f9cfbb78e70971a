//! Flags for a `TypeFormatter`, with the names and the default of the original.
use std::fmt;
use std::ops::{BitAnd, BitOr, BitOrAssign, BitXor, BitXorAssign, Not, Sub};

/// Flags for [`TypeFormatter`](crate::TypeFormatter).
///
/// ```
/// use yokberd::TypeFormatterFlags;
///
/// let flags = TypeFormatterFlags::NO_ARGUMENTS | TypeFormatterFlags::NAME_ONLY;
/// assert!(flags.contains(TypeFormatterFlags::NAME_ONLY));
/// assert_eq!(flags.bits(), 0x30);
/// assert_eq!(TypeFormatterFlags::from_bits(0x40), None);
/// assert_eq!(format!("{flags:?}"), "TypeFormatterFlags(NAME_ONLY | NO_ARGUMENTS)");
/// ```
#[derive(Clone, Copy, PartialEq, Eq, Hash)]
pub struct TypeFormatterFlags(u32);

impl TypeFormatterFlags {
    /// Do not print the return type for the root function.
    pub const NO_FUNCTION_RETURN: Self = Self(0b1);

    /// Do not print static before the signature of a static method.
    pub const NO_MEMBER_FUNCTION_STATIC: Self = Self(0b10);

    /// Add a space after each comma in an argument list.
    pub const SPACE_AFTER_COMMA: Self = Self(0b100);

    /// Add a space before the * or & sigil of a pointer or reference.
    pub const SPACE_BEFORE_POINTER: Self = Self(0b1000);

    /// Only print "MyClassName" instead of "class MyClassName", "struct MyClassName", or "interface MyClassName".
    pub const NAME_ONLY: Self = Self(0b10000);

    /// Do not print a functions argument types.
    pub const NO_ARGUMENTS: Self = Self(0b100000);

    /// Each flag with its name.
    pub const NAMES: [(&'static str, Self); 6] = [
        ("NO_FUNCTION_RETURN", Self::NO_FUNCTION_RETURN),
        ("NO_MEMBER_FUNCTION_STATIC", Self::NO_MEMBER_FUNCTION_STATIC),
        ("SPACE_AFTER_COMMA", Self::SPACE_AFTER_COMMA),
        ("SPACE_BEFORE_POINTER", Self::SPACE_BEFORE_POINTER),
        ("NAME_ONLY", Self::NAME_ONLY),
        ("NO_ARGUMENTS", Self::NO_ARGUMENTS),
    ];

    /// No flag.
    pub const fn empty() -> Self {
        Self(0)
    }

    /// Every flag.
    pub const fn all() -> Self {
        Self(0b111111)
    }

    /// The flags as a number.
    pub const fn bits(self) -> u32 {
        self.0
    }

    /// The flags of a number, or `None` where it has a bit that is no flag.
    pub const fn from_bits(bits: u32) -> Option<Self> {
        if bits & !Self::all().0 == 0 {
            Some(Self(bits))
        } else {
            None
        }
    }

    /// The flags of a number, bits that are no flag left out.
    pub const fn from_bits_truncate(bits: u32) -> Self {
        Self(bits & Self::all().0)
    }

    /// A number as flags, whatever its bits. A call with a bit that is no flag is refused: [`Error::UnknownFlags`](crate::Error::UnknownFlags).
    pub const fn from_bits_retain(bits: u32) -> Self {
        Self(bits)
    }

    /// Whether no flag is set.
    pub const fn is_empty(self) -> bool {
        self.0 == 0
    }

    /// Whether all of the other flags are set.
    pub const fn contains(self, other: Self) -> bool {
        self.0 & other.0 == other.0
    }

    /// Whether one of the other flags is set.
    pub const fn intersects(self, other: Self) -> bool {
        self.0 & other.0 != 0
    }

    /// The flags of either.
    pub const fn union(self, other: Self) -> Self {
        Self(self.0 | other.0)
    }

    /// These flags without the others.
    pub const fn difference(self, other: Self) -> Self {
        Self(self.0 & !other.0)
    }

    /// Sets the other flags.
    pub fn insert(&mut self, other: Self) {
        self.0 |= other.0;
    }

    /// Clears the other flags.
    pub fn remove(&mut self, other: Self) {
        self.0 &= !other.0;
    }

    /// Sets the other flags or clears them.
    pub fn set(&mut self, other: Self, on: bool) {
        if on {
            self.insert(other);
        } else {
            self.remove(other);
        }
    }
}

impl Default for TypeFormatterFlags {
    fn default() -> Self {
        Self::NO_FUNCTION_RETURN | Self::NO_MEMBER_FUNCTION_STATIC | Self::SPACE_AFTER_COMMA | Self::NAME_ONLY
    }
}

impl BitOr for TypeFormatterFlags {
    type Output = Self;

    fn bitor(self, other: Self) -> Self {
        self.union(other)
    }
}

impl BitOrAssign for TypeFormatterFlags {
    fn bitor_assign(&mut self, other: Self) {
        self.insert(other);
    }
}

impl BitAnd for TypeFormatterFlags {
    type Output = Self;

    fn bitand(self, other: Self) -> Self {
        Self(self.0 & other.0)
    }
}

impl Sub for TypeFormatterFlags {
    type Output = Self;

    fn sub(self, other: Self) -> Self {
        self.difference(other)
    }
}

impl BitXor for TypeFormatterFlags {
    type Output = Self;

    fn bitxor(self, other: Self) -> Self {
        Self(self.0 ^ other.0)
    }
}

impl BitXorAssign for TypeFormatterFlags {
    fn bitxor_assign(&mut self, other: Self) {
        self.0 ^= other.0;
    }
}

impl Not for TypeFormatterFlags {
    type Output = Self;

    /// The flags that are not set. Bits that are no flag are left out.
    fn not(self) -> Self {
        Self::all().difference(self)
    }
}

/// The names of the flags, as `TypeFormatterFlags(NO_FUNCTION_RETURN | NAME_ONLY)`; `empty` where there is none, and bits that are no flag in hexadecimal.
impl fmt::Debug for TypeFormatterFlags {
    fn fmt(&self, f: &mut fmt::Formatter<'_>) -> fmt::Result {
        let unknown = self.difference(Self::all());
        let mut names: Vec<_> = Self::NAMES.iter().filter(|(_, flag)| self.contains(*flag)).map(|(name, _)| name.to_string()).collect();
        if !unknown.is_empty() {
            names.push(format!("{:#x}", unknown.0));
        }
        let shown = if names.is_empty() { "empty".to_string() } else { names.join(" | ") };
        write!(f, "TypeFormatterFlags({shown})")
    }
}
