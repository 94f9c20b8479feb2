use std::fmt;
use std::ops::Range;

/// Two names of one table that are the same letters, composed in one and decomposed in the other. Its text is for the arbiter.
#[derive(Clone, Debug, PartialEq, Eq, Hash)]
pub struct AlikeNames {
    /// Where the earlier name stands in the pack.
    pub earlier: Range<usize>,
    /// Where the later one stands. Its bytes are never those of the earlier.
    pub later: Range<usize>,
}

impl fmt::Display for AlikeNames {
    fn fmt(&self, f: &mut fmt::Formatter<'_>) -> fmt::Result {
        let AlikeNames { earlier, later } = self;
        write!(
            f,
            "the {} bytes from byte {} on and the {} bytes from byte {} on are names that print alike: they may be one field \
             or method, sent in two forms; ask the pack's author to send one form, and do not pair by this pack before that \
             is settled",
            earlier.len(),
            earlier.start,
            later.len(),
            later.start
        )
    }
}
