//! A rule of a sheet.

/// A rule: its kind, and the operators that it names first and second.
#[derive(Clone, Copy, Debug, PartialEq, Eq, Hash)]
#[repr(C)]
pub struct Rule {
    /// 1 priority, 2 left, 3 right; any other is refused.
    pub kind: u8,
    /// The operator a.
    pub first: u8,
    /// The operator b.
    pub second: u8,
}

impl Rule {
    /// a over b, and over all that b is over. An infix one of them is not the top of an operand of a; a prefix one is nowhere on
    /// the right edge of the left operand of an infix a.
    #[must_use]
    pub const fn priority(a: u8, b: u8) -> Rule {
        Rule { kind: 1, first: a, second: b }
    }

    /// a left b: an infix b is not the top of a's right or only operand.
    #[must_use]
    pub const fn left(a: u8, b: u8) -> Rule {
        Rule { kind: 2, first: a, second: b }
    }

    /// a right b, for an infix a: an infix b is not the top of a's left operand, a prefix b nowhere on the right edge of it.
    #[must_use]
    pub const fn right(a: u8, b: u8) -> Rule {
        Rule { kind: 3, first: a, second: b }
    }
}
