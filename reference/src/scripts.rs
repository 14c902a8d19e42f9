//! Scripts from a seed.
//!
//! A script is written with a heap at hand that obeys it, so that most commands can be chosen to be accepted, and the refused ones to be
//! refused by the question that is meant. A flavour sets the sizes and how often each pattern is used.

use crate::flavours::{Flavour, DUMPED, FLAVOURS, LONG};
use crate::heap::{Heap, Limits};
use crate::malformed::{sizes_out_of_range, spoil, KINDS, OUT_OF_RANGE};
use crate::random::Random;
use crate::writer::Writer;

pub struct Script {
    pub text: Vec<u8>,
    pub flavour: &'static str,
    /// What is malformed in it, if anything.
    pub fault: Option<String>,
}

/// The script of a seed, with sizes that the program takes.
pub fn script(seed: u64) -> Script {
    of_flavours(seed, FLAVOURS)
}

/// The script of a seed that is to end in a dump: every fifth is of the flavours for that, some of which have sizes up to 01's largest.
pub fn dump_script(seed: u64) -> Script {
    of_flavours(seed, if seed % 5 == 3 { DUMPED } else { FLAVOURS })
}

fn of_flavours(seed: u64, flavours: &'static [Flavour]) -> Script {
    // Neighbouring seeds must not give neighbouring scripts.
    let mut random = Random::new(seed.wrapping_mul(0x2545_f491_4f6c_dd1d) ^ 0x5851_f42d_4c95_7f2d);
    random.next();
    let places: Vec<(usize, usize)> = flavours.iter().enumerate().map(|(place, flavour)| (place, flavour.weight)).collect();
    let flavour = &flavours[random.weighted(&places)];
    let [threads, variables, depth, pages, entries] = flavour.sizes.map(|(low, high)| random.between(low, high) as u32);
    let limits = Limits { threads, variables, depth, pages, entries };
    let most = random.between(flavour.commands.0, flavour.commands.1);
    let mut writer = Writer { random, heap: Heap::new(limits), steps: Vec::new(), serial: 0, most };
    while !writer.full() {
        let pattern = writer.random.weighted(flavour.patterns);
        writer.play(pattern);
    }
    if flavour.name != "short" {
        if writer.random.percent(50) {
            writer.cut();
        }
        writer.look_around();
    }
    // Every sixth script is malformed.
    let turn = (seed % 6 == 5).then_some((seed / 6) as usize);
    written(&mut writer.random, flavour.name, limits, &writer.steps, turn)
}

/// A well-formed script of at least so many commands on small tables. One thread opens epochs and works in them, clears its variables, ends
/// all epochs and collects the control space, again and again, so that there is always room.
pub fn long(seed: u64, commands: usize) -> Vec<u8> {
    let limits = Limits { threads: 1, variables: 8, depth: 4, pages: 16, entries: 64 };
    let mut writer = Writer { random: Random::new(seed), heap: Heap::new(limits), steps: Vec::new(), serial: 0, most: commands };
    while !writer.full() {
        writer.start(0);
        while writer.heap.free_pages() > 10 && writer.heap.crossing_slots() < 40 {
            let pattern = writer.random.weighted(LONG);
            writer.play(pattern);
        }
        for v in 0..limits.variables as usize {
            writer.clear(0, v);
        }
        while writer.heap.depth(0) > 0 && writer.end(0) {}
        writer.collect(0);
    }
    let mut text = "1 8 4 16 64\n".to_string();
    for [code, t, a, b, c] in writer.steps {
        text += &format!("{code} {t} {a} {b} {c}\n");
    }
    text.into_bytes()
}

/// The text of a script: some numbers get leading zeros, some texts lack the last line feed, some are malformed.
fn written(random: &mut Random, flavour: &'static str, limits: Limits, steps: &[[u32; 5]], turn: Option<usize>) -> Script {
    let first = [limits.threads, limits.variables, limits.depth, limits.pages, limits.entries];
    let zeros = random.percent(10);
    let mut lines: Vec<Vec<u8>> = Vec::new();
    for words in std::iter::once(&first).chain(steps) {
        let words: Vec<String> = words.iter().map(|word| format!("{}{word}", leading_zeros(random, zeros))).collect();
        lines.push(words.join(" ").into_bytes());
    }
    let mut fault = None;
    let mut last_feed = !random.percent(15);
    if let Some(turn) = turn {
        fault = Some(spoilt(random, &mut lines, &mut last_feed, turn));
    }
    let mut text = lines.join(&b'\n');
    if last_feed && !lines.is_empty() {
        text.push(b'\n');
    }
    Script { text, flavour, fault }
}

fn leading_zeros(random: &mut Random, zeros: bool) -> String {
    if !zeros || !random.percent(10) {
        return String::new();
    }
    let count = random.weighted(&[(1, 50), (3, 30), (10, 15), (70, 4), (5000, 1)]);
    "0".repeat(count)
}

/// Makes the text malformed, in one way. The ways take turns, so that a few hundred scripts have all of them.
fn spoilt(random: &mut Random, lines: &mut Vec<Vec<u8>>, last_feed: &mut bool, turn: usize) -> String {
    let kinds = KINDS.len();
    let turn = turn % (2 * kinds + 2 + OUT_OF_RANGE.len());
    if turn < 2 * kinds {
        let kind = turn / 2;
        let on_first = turn % 2 == 0;
        if lines.len() == 1 {
            lines.push(b"10 0 0 0 0".to_vec());
        }
        let last = lines.len() - 1;
        let at = match on_first {
            true => 0,
            false if random.percent(30) => last,
            false => random.between(1, last),
        };
        lines[at] = spoil(random, &String::from_utf8_lossy(&lines[at]), kind);
        // An empty last line without a line feed would be no line.
        *last_feed |= lines[last].is_empty();
        return format!("{}: {}", if on_first { "first line" } else { "later line" }, KINDS[kind]);
    }
    match turn - 2 * kinds {
        0 => {
            lines.clear();
            "no first line".to_string()
        }
        1 => {
            lines.push(Vec::new());
            *last_feed = true;
            "later line: empty, the last".to_string()
        }
        more => {
            let (size, value) = OUT_OF_RANGE[more - 2];
            lines[0] = sizes_out_of_range(random, more - 2).into_bytes();
            format!("first line: {} is {value}", ["T", "V", "D", "P", "N"][size])
        }
    }
}
