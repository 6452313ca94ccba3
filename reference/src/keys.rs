//! The comparison of two keys, and how much of them it looks at.

/// What a comparison tells.
#[derive(Clone, Copy, Debug, PartialEq, Eq)]
pub struct Compared {
    pub equal: bool,
    /// How many pairs of bytes were compared: 0 for unlike lengths, else those
    /// through the first unlike pair, or all.
    pub pairs: usize,
}

/// Compares the lengths first, and then the bytes from the end.
pub fn same_key(one: &[u8], other: &[u8]) -> Compared {
    let mut told = Compared {
        equal: one.len() == other.len(),
        pairs: 0,
    };
    let mut left = one.len();
    while told.equal && left > 0 {
        left -= 1;
        told.pairs += 1;
        told.equal = one[left] == other[left];
    }
    told
}
