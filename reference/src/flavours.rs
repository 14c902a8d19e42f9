//! Flavours of scripts: the sizes they draw from and how often each pattern is used.

use crate::patterns::Pattern::{self, *};

pub struct Flavour {
    pub name: &'static str,
    /// How often this flavour is chosen, in percent.
    pub weight: usize,
    /// Least and most of T, V, D, P and N.
    pub sizes: [(usize, usize); 5],
    /// Least and most commands before the last look around; a pattern that has begun is finished.
    pub commands: (usize, usize),
    /// Patterns with their weights.
    pub patterns: &'static [(Pattern, usize)],
}

/// For the program.
#[rustfmt::skip]
pub const FLAVOURS: &[Flavour] = &[
    Flavour {
        name: "soup",
        weight: 9,
        sizes: [(1, 4), (1, 6), (1, 4), (1, 8), (0, 12)],
        commands: (20, 300),
        patterns: &[(Any, 60), (Refuse, 2), (Open, 3), (Close, 4), (Tangle, 2), (Probe, 3), (Share, 2), (Clear, 2), (Collect, 3), (Register, 1)],
    },
    Flavour {
        name: "deep",
        weight: 16,
        sizes: [(1, 3), (10, 16), (6, 8), (12, 32), (12, 200)],
        commands: (120, 400),
        patterns: &[(Descend, 6), (Tangle, 20), (Fan, 3), (Any, 10), (Probe, 5), (Overwrite, 2), (Clear, 1), (Share, 2), (Ring, 1), (Wide, 1), (Refuse, 1), (Collect, 2), (Register, 2)],
    },
    Flavour {
        name: "few pages",
        weight: 11,
        sizes: [(1, 3), (2, 8), (1, 3), (1, 4), (0, 64)],
        commands: (60, 260),
        patterns: &[(Press, 8), (Fill, 6), (Open, 4), (Close, 4), (List, 4), (Any, 10), (Tangle, 3), (Probe, 3), (Clear, 2), (Refuse, 1), (Collect, 2), (Register, 3)],
    },
    Flavour {
        name: "few entries",
        weight: 9,
        sizes: [(1, 3), (3, 8), (2, 6), (8, 24), (0, 4)],
        commands: (60, 260),
        patterns: &[(Fan, 10), (Again, 6), (Tangle, 8), (Ladder, 6), (Descend, 5), (Overwrite, 4), (Any, 8), (Close, 4), (Share, 3), (Probe, 2), (Refuse, 1), (Collect, 1), (Register, 2)],
    },
    Flavour {
        name: "few of both",
        weight: 7,
        sizes: [(1, 3), (4, 8), (3, 5), (2, 5), (1, 3)],
        commands: (60, 200),
        patterns: &[(FullFan, 10), (Fan, 4), (Press, 3), (Any, 6), (Close, 4), (Clear, 4), (Tangle, 3), (Collect, 1), (Register, 1)],
    },
    Flavour {
        name: "lists and rings",
        weight: 9,
        sizes: [(1, 3), (2, 8), (1, 5), (4, 32), (4, 200)],
        commands: (100, 400),
        patterns: &[(List, 8), (Ring, 8), (Open, 6), (Close, 8), (Fill, 2), (Share, 4), (Probe, 6), (Any, 10), (Clear, 4), (Tangle, 4), (LongList, 4), (Collect, 3), (Register, 3)],
    },
    Flavour {
        name: "registers",
        weight: 8,
        sizes: [(1, 4), (4, 12), (1, 4), (6, 32), (4, 64)],
        commands: (150, 500),
        patterns: &[
            (Register, 12), (Collect, 3), (Any, 12), (Open, 3), (Close, 4), (Tangle, 4), (Ring, 3), (Share, 4), (Clear, 4), (Overwrite, 2), (Probe, 3),
            (Descend, 2), (Fill, 1),
        ],
    },
    Flavour {
        name: "sheets",
        weight: 10,
        sizes: [(2, 8), (6, 12), (2, 5), (12, 32), (6, 80)],
        commands: (80, 300),
        patterns: &[(Sheets, 10), (Ladder, 10), (Open, 2), (Close, 6), (Any, 8), (Overwrite, 4), (Tangle, 3), (Share, 3), (Clear, 2), (Probe, 2), (Collect, 3), (Register, 2)],
    },
    Flavour {
        name: "many threads",
        weight: 7,
        sizes: [(8, 16), (1, 8), (1, 8), (16, 32), (0, 100)],
        commands: (100, 400),
        patterns: &[(Open, 12), (Any, 30), (Tangle, 10), (Share, 12), (Close, 8), (Probe, 4), (Descend, 3), (Overwrite, 2), (Refuse, 2), (Collect, 2), (Register, 4)],
    },
    Flavour {
        name: "refused",
        weight: 8,
        sizes: [(1, 16), (1, 32), (1, 8), (1, 32), (0, 1024)],
        commands: (30, 120),
        patterns: &[(Refuse, 20), (Any, 10), (Open, 1), (Tangle, 1), (Again, 1), (Collect, 1), (Register, 1)],
    },
    Flavour {
        name: "short",
        weight: 5,
        sizes: [(1, 16), (1, 32), (1, 8), (1, 32), (0, 1024)],
        commands: (0, 3),
        patterns: &[(Any, 5), (Refuse, 5), (Collect, 1)],
    },
    Flavour {
        name: "large",
        weight: 1,
        sizes: [(2, 16), (8, 32), (2, 8), (24, 32), (50, 1024)],
        commands: (4000, 9000),
        patterns: &[
            (Any, 40), (Open, 4), (Close, 5), (List, 3), (Ring, 2), (Tangle, 6), (Descend, 2), (Share, 4), (Probe, 4), (Fill, 1), (Clear, 2), (Fan, 1),
            (Overwrite, 1), (Wide, 3), (LongList, 1), (Refuse, 1), (Collect, 1), (Register, 2),
        ],
    },
];

/// For dumps alone: survivors that go to several regions, registers among other regions' pages, many sheets open, and sizes up to the largest.
#[rustfmt::skip]
pub const DUMPED: &[Flavour] = &[
    Flavour {
        name: "spread",
        weight: 30,
        sizes: [(1, 3), (8, 16), (3, 8), (10, 48), (4, 64)],
        commands: (200, 600),
        patterns: &[(Spread, 12), (Descend, 3), (Tangle, 4), (Fill, 2), (Overwrite, 4), (Clear, 2), (Share, 3), (Any, 12), (Close, 2), (Wide, 1), (Collect, 1), (Register, 1)],
    },
    Flavour {
        name: "pages between",
        weight: 20,
        sizes: [(2, 6), (6, 16), (2, 6), (16, 64), (16, 200)],
        commands: (300, 900),
        patterns: &[(Register, 12), (Collect, 3), (Any, 10), (Open, 4), (Tangle, 3), (Spread, 3), (Share, 4), (Clear, 3), (Wide, 1), (Overwrite, 3), (Close, 1)],
    },
    Flavour {
        name: "many sheets",
        weight: 16,
        sizes: [(2, 16), (6, 16), (3, 8), (24, 128), (16, 1000)],
        commands: (200, 900),
        patterns: &[(Sheets, 10), (Ladder, 10), (Spread, 2), (Wide, 2), (Open, 3), (Close, 4), (Any, 8), (Overwrite, 4), (Share, 3), (Clear, 2), (Register, 3), (Collect, 3)],
    },
    Flavour {
        name: "many pages",
        weight: 18,
        sizes: [(1, 16), (8, 32), (2, 8), (33, 1024), (16, 4096)],
        commands: (500, 2000),
        patterns: &[(Spread, 8), (LongList, 6), (List, 4), (Tangle, 6), (Share, 4), (Open, 4), (Any, 20), (Fan, 2), (Overwrite, 3), (Wide, 3), (Fill, 3), (Register, 4), (Collect, 1)],
    },
    Flavour {
        name: "many entries",
        weight: 10,
        sizes: [(1, 4), (8, 16), (4, 8), (64, 512), (500, 4096)],
        commands: (1000, 3000),
        patterns: &[(Wide, 12), (Spread, 6), (Overwrite, 8), (Any, 8), (Fan, 4), (Share, 4), (Again, 2), (Tangle, 2), (Register, 3), (Collect, 1)],
    },
    Flavour {
        name: "pages to the last",
        weight: 6,
        sizes: [(1, 8), (8, 16), (2, 6), (33, 160), (64, 1024)],
        commands: (4000, 9000),
        patterns: &[(LongList, 12), (Spread, 8), (List, 6), (Fill, 6), (Press, 4), (Any, 10), (Tangle, 4), (Close, 3), (Clear, 2), (Share, 3), (Register, 4), (Collect, 1)],
    },
];

/// For long scripts on small tables.
#[rustfmt::skip]
pub const LONG: &[(Pattern, usize)] = &[
    (Any, 60), (Tangle, 8), (List, 3), (Ring, 3), (Open, 3), (Close, 4), (Probe, 6), (Fan, 2), (Register, 1), (Collect, 2),
];
