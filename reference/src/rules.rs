//! The region rules of document 01 that concern no particular heap: regions, their join, crossing, and pages.

/// A region: the control space, or the epoch that a thread has open at a level (from 1, the outermost).
#[derive(Clone, Copy, PartialEq, Eq, PartialOrd, Ord, Debug)]
pub enum Region {
    Control,
    Epoch { thread: usize, level: usize },
}

use Region::{Control, Epoch};

impl Region {
    /// The region of a thread at a level, where level 0 means the control space.
    pub fn at(thread: usize, level: usize) -> Region {
        if level == 0 {
            Control
        } else {
            Epoch { thread, level }
        }
    }

    /// 0 for the control space; the smaller, the further out.
    pub fn level(self) -> usize {
        match self {
            Control => 0,
            Epoch { level, .. } => level,
        }
    }
}

/// Of two regions of one thread the outer; of different threads, or with the control space, the control space.
pub fn join(one: Region, other: Region) -> Region {
    match (one, other) {
        (Epoch { thread: s, level: j }, Epoch { thread: t, level: k }) if s == t => Epoch { thread: s, level: j.min(k) },
        _ => Control,
    }
}

/// Is a slot crossing whose object lies in `from` and that points into `to`?
pub fn crosses(from: Region, to: Region) -> bool {
    from != to && to != Control
}

/// A region of n objects uses n / 16 pages, rounded up.
pub fn pages_for(objects: usize) -> usize {
    objects.div_ceil(16)
}
