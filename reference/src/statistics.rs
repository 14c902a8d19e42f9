//! What generated scripts reach: how often each situation occurs, and in what share of the scripts.

use crate::collecting::Collecting;
use crate::counted::{commas, share};
use crate::ending::Ending;
use crate::heap::{Heap, Id};
use crate::lines::{five_numbers, program_sizes};
use crate::rules::{crosses, Region};
use crate::scripts::Script;
use std::collections::{BTreeMap, BTreeSet};

/// Groups and labels are printed in alphabetical order, so groups begin with a letter of their own.
#[derive(Default)]
pub struct Statistics {
    scripts: usize,
    commands: usize,
    /// By group and label: how often, and in how many scripts.
    counts: BTreeMap<(&'static str, String), (usize, usize)>,
    /// What the present script has reached.
    reached: BTreeSet<(&'static str, String)>,
}

impl Statistics {
    fn add(&mut self, group: &'static str, label: impl Into<String>, times: usize) {
        if times == 0 {
            return;
        }
        let key = (group, label.into());
        self.reached.insert(key.clone());
        self.counts.entry(key).or_default().0 += times;
    }

    fn once(&mut self, group: &'static str, label: impl Into<String>) {
        self.add(group, label, 1);
    }

    pub fn script(&mut self, script: &Script) {
        self.scripts += 1;
        self.once("I flavours", script.flavour);
        self.once("H malformed", script.fault.clone().unwrap_or("nothing".to_string()));
        if script.text.last() != Some(&b'\n') {
            self.once("G texts", "no last line feed");
        }
        self.play(&script.text);
        for key in std::mem::take(&mut self.reached) {
            self.counts.get_mut(&key).unwrap().1 += 1;
        }
    }

    fn play(&mut self, text: &[u8]) {
        let mut lines = text.split(|&byte| byte == b'\n');
        let Some(limits) = lines.next().and_then(program_sizes) else {
            return self.once("G texts", "prints sizes");
        };
        self.once(
            "G texts",
            format!("N {}", ["is 0", "1 to 4", "over 4"][(limits.entries as usize).min(1) + (limits.entries > 4) as usize]),
        );
        self.once("G texts", format!("P {}", if limits.pages <= 2 { "at most 2" } else { "over 2" }));
        self.once("G texts", format!("T {}", if limits.threads >= 8 { "at least 8" } else { "below 8" }));
        let mut heap = Heap::new(limits);
        let mut rest: Vec<&[u8]> = lines.collect();
        if rest.last().is_some_and(|line| line.is_empty()) {
            rest.pop();
        }
        for line in rest {
            let Some(words) = five_numbers(line) else {
                return self.once("G texts", "prints line k");
            };
            self.commands += 1;
            self.command(&mut heap, words);
        }
        self.once("G texts", "prints a report");
        self.once("G texts", format!("open epochs at the end: {}", (0..limits.threads as usize).any(|t| heap.depth(t) > 0)));
    }

    fn command(&mut self, heap: &mut Heap, words: [u32; 5]) {
        let before = if [2, 7, 11].contains(&words[0]) { Some(heap.clone()) } else { None };
        match heap.obey(words) {
            Err(number) => {
                let what = match (number, words[0]) {
                    (13, 2) | (14, 2) => ", an end",
                    (13, _) => ", a new object",
                    (14, _) => ", a store",
                    _ => "",
                };
                self.once("A answers", format!("{number:2}{what}"));
                if number == 13 && words[0] == 2 && heap.ending(words[1] as usize).crossing > heap.limits.entries as usize {
                    self.once("A answers", "13, an end, where 14 is due too");
                }
            }
            Ok(_) => {
                self.once("B done", format!("code {:2}", words[0]));
                let t = words[1] as usize;
                match (words[0], before) {
                    (1, _) => self.once("B done", format!("start of level {}", heap.depth(t))),
                    (2, Some(before)) => self.end(&before, heap, t),
                    (7, Some(before)) => self.store(&before, heap, words),
                    (11, Some(before)) => self.collection(&before, heap, t),
                    _ => {}
                }
                if heap.free_pages() == 0 {
                    self.once("B done", "no free page afterwards");
                }
            }
        }
    }

    fn store(&mut self, before: &Heap, after: &Heap, [_, t, a, field, _]: [u32; 5]) {
        let object = before.variable(t as usize, a as usize).unwrap();
        let kind = |heap: &Heap| {
            let value = heap.references(object)[field as usize];
            if value.is_none() {
                "null"
            } else if heap.slot_crosses(object, value) {
                "crossing"
            } else {
                "not crossing"
            }
        };
        self.once("F stores", format!("{} over {}", kind(after), kind(before)));
        if kind(before) == "crossing" && kind(after) == "crossing" && before.crossing_slots() == before.limits.entries as usize {
            self.once("F stores", "crossing over crossing with all entries used");
        }
        let region = |heap: &Heap| heap.references(object)[field as usize].map(|to| heap.region(to));
        if kind(before) == "crossing" && kind(after) == "crossing" && region(before) != region(after) {
            self.once("F stores", "crossing over crossing, into another region");
        }
    }

    fn end(&mut self, before: &Heap, after: &Heap, t: usize) {
        let ending = before.ending(t);
        let r = before.innermost(t);
        let group = "C ends";
        for level in 0..r.level() {
            let target = Region::at(t, level);
            let moved = ending.survivors.iter().filter(|&&id| ending.regions[id] == Some(target)).count();
            self.add(group, format!("objects moved to level {level}"), moved);
        }
        let targets: BTreeSet<Region> = ending.survivors.iter().map(|&id| ending.regions[id].unwrap()).collect();
        self.once(group, format!("regions that survivors go to: {}", targets.len()));
        self.once(group, format!("survivors: {}", range(ending.survivors.len())));
        self.once(group, format!("new pages for survivors: {}", range(ending.new_pages)));
        self.once(group, format!("end of level {}", r.level()));
        self.add(group, "objects freed", ending.freed.len());
        self.once("D crossing after an end", range(after.crossing_slots()));
        self.entries(before, &ending, r);
        self.moved_slots(before, &ending, r);
        self.holders(before, &ending, t);
    }

    /// The entries that an end meets: those into its region, which hold, and those into others.
    fn entries(&mut self, before: &Heap, ending: &Ending, r: Region) {
        let group = "C ends";
        let (mut holding, mut turned, mut regions) = (0, 0, BTreeSet::new());
        for id in before.ids() {
            for &to in before.references(id).iter().flatten().filter(|&&to| crosses(before.region(id), before.region(to))) {
                regions.insert(before.region(to));
                if before.region(to) == r {
                    holding += 1;
                    turned += usize::from(crosses(before.region(id), ending.regions[to].unwrap()));
                }
            }
        }
        self.once(group, format!("holding slots: {}", range(holding)));
        self.once(group, format!("regions that entries point into: {}", range(regions.len())));
        self.add(group, "holding slots that point into another region afterwards", turned);
    }

    /// Slots that an end makes crossing, or no longer crossing, or drops.
    fn moved_slots(&mut self, before: &Heap, ending: &Ending, r: Region) {
        let group = "C ends";
        for id in before.ids() {
            for to in before.references(id).iter().flatten() {
                let was = crosses(before.region(id), before.region(*to));
                match ending.regions[id] {
                    None => self.add(group, "crossing slots of freed objects", usize::from(was)),
                    Some(from) => {
                        let target = ending.regions[*to].unwrap();
                        let is = crosses(from, target);
                        self.add(group, "slots that become crossing (edge 6)", usize::from(is && !was));
                        self.add(group, "slots no longer crossing", usize::from(was && !is));
                        let inside = before.region(id) == r && before.region(*to) == r;
                        let edge_5 = inside && from != target && target == Region::Control;
                        self.add(group, "slots from a level to the control space, both moved (edge 5)", usize::from(edge_5));
                    }
                }
            }
        }
        let freed: BTreeSet<Id> = ending.freed.iter().copied().collect();
        let pointed = ending.freed.iter().any(|&id| before.references(id).iter().flatten().any(|to| freed.contains(to)));
        self.add(group, "freed objects point to freed ones (edge 4)", usize::from(pointed));
    }

    /// Who holds the survivors.
    fn holders(&mut self, before: &Heap, ending: &Ending, t: usize) {
        let group = "C ends";
        let r = before.innermost(t);
        let held: BTreeSet<Id> = before.calls(t).iter().map(|call| call.0).collect();
        self.add(group, "survivors held by nothing outside", ending.survivors.iter().filter(|id| !held.contains(id)).count());
        // A chain may choose a region further in than the one taken.
        let mut inner = 0;
        for (id, call) in before.calls(t) {
            if ending.regions[id] != Some(call) {
                inner += 1;
            }
        }
        self.add(group, "holders that call for less than is taken (edges 2, 5)", inner);
        let mut by_kind: BTreeMap<Id, BTreeSet<&str>> = BTreeMap::new();
        let reachable = reachable(before);
        for id in before.ids().filter(|&id| before.region(id) != r) {
            for to in before.references(id).iter().flatten().filter(|to| before.region(**to) == r) {
                let kind = match before.region(id) {
                    Region::Control => "a control space slot",
                    Region::Epoch { thread, .. } if thread == t => "a slot further out",
                    _ => "another thread's slot",
                };
                by_kind.entry(*to).or_default().insert(kind);
                if !reachable.contains(&id) {
                    self.once(group, "holding slots of objects nobody reaches");
                }
            }
        }
        for thread in 0..before.limits.threads as usize {
            for v in 0..before.limits.variables as usize {
                if let Some(id) = before.variable(thread, v).filter(|&id| before.region(id) == r) {
                    by_kind.entry(id).or_default().insert(if thread == t {
                        "the thread's variables"
                    } else {
                        "another thread's variables"
                    });
                }
            }
        }
        for kinds in by_kind.values() {
            let label =
                if kinds.len() == 1 { format!("held only by {}", kinds.first().unwrap()) } else { "held by several kinds".to_string() };
            self.once(group, label);
        }
    }

    /// What a collection keeps and frees, and what moves.
    fn collection(&mut self, before: &Heap, after: &Heap, t: usize) {
        let group = "E collections";
        let Collecting { kept, freed } = before.collecting();
        let pages = |heap: &Heap| heap.pages().iter().filter(|page| page.owner == Some(Region::Control)).count();
        self.once(group, format!("objects kept: {}", range(kept.len())));
        self.once(group, format!("objects freed: {}", range(freed.len())));
        self.once(group, format!("pages given back: {}", range(pages(before) - pages(after))));
        self.once(group, format!("pages before: {}", range(pages(before))));
        if before == after {
            self.once(group, "nothing changes");
        }
        let moved = |id: &Id| before.cell(*id) != after.cell(*id);
        self.add(group, "objects that move", kept.iter().copied().filter(moved).count());
        // The pages of other regions that an object passes.
        let passed = |id: &Id| {
            let between = &before.pages()[after.cell(*id) / 16..=before.cell(*id) / 16];
            between.iter().any(|page| page.owner.is_some_and(|region| region != Region::Control))
        };
        self.add(group, "objects that move past another region's page", kept.iter().copied().filter(passed).count());
        self.add(group, "crossing slots of objects kept", kept.iter().map(|&id| before.crossing_slots_of(id)).sum());
        self.add(group, "crossing slots of objects freed", freed.iter().map(|&id| before.crossing_slots_of(id)).sum());
        let order = |heap: &Heap| {
            let mut crossing: Vec<Id> = after.ids().filter(|&id| heap.crossing_slots_of(id) > 0).collect();
            crossing.sort_by_key(|&id| heap.cell(id));
            crossing
        };
        if order(before) != order(after) {
            self.once(group, "entries change their order");
        }
        self.chains(before, &kept, &freed);
        self.holders_in_control(before, &kept, t);
    }

    /// Slots inside the control space, from and to what is kept and what is freed.
    fn chains(&mut self, before: &Heap, kept: &[Id], freed: &[Id]) {
        let group = "E collections";
        let freed: BTreeSet<Id> = freed.iter().copied().collect();
        for &id in kept.iter().chain(&freed) {
            for &to in before.references(id).iter().flatten().filter(|&&to| before.region(to) == Region::Control) {
                self.once(
                    group,
                    match (freed.contains(&id), freed.contains(&to)) {
                        (true, true) => "slots from freed to freed",
                        (true, false) => "slots from freed to kept",
                        _ if before.cell(to) > before.cell(id) => "slots from kept to kept, up",
                        _ if before.cell(to) < before.cell(id) => "slots from kept to kept, down",
                        _ => "slots from kept to itself",
                    },
                );
            }
        }
    }

    /// Who holds what is kept.
    fn holders_in_control(&mut self, before: &Heap, kept: &[Id], t: usize) {
        let group = "E collections";
        let mut by_kind: BTreeMap<Id, BTreeSet<&str>> = BTreeMap::new();
        let reachable = reachable(before);
        for thread in 0..before.limits.threads as usize {
            for &id in before.variables(thread).iter().flatten() {
                by_kind.entry(id).or_default().insert(if thread == t { "the thread's variables" } else { "another thread's variables" });
            }
        }
        for id in before.ids().filter(|&id| before.region(id) != Region::Control) {
            let kind = if reachable.contains(&id) { "slots of open regions" } else { "slots of objects nobody reaches" };
            for &to in before.references(id).iter().flatten() {
                by_kind.entry(to).or_default().insert(kind);
            }
        }
        for id in kept {
            let label = match by_kind.get(id) {
                None => "kept by a chain alone".to_string(),
                Some(kinds) if kinds.len() == 1 => format!("held only by {}", kinds.first().unwrap()),
                Some(_) => "held by several kinds".to_string(),
            };
            self.once(group, label);
        }
    }

    pub fn print(&self) {
        println!("{} scripts, {} commands", commas(self.scripts), commas(self.commands));
        let mut last = "";
        for ((group, label), (times, scripts)) in &self.counts {
            if *group != last {
                println!("{}", &group[2..]);
                last = group;
            }
            println!("  {label:62} {:>10} times, in {:>6} of scripts", commas(*times), share(*scripts, self.scripts));
        }
    }
}

/// A count, or the range it falls into.
fn range(count: usize) -> &'static str {
    match count {
        0 => " 0",
        1 => " 1",
        2..=4 => " 2 to 4",
        5..=16 => " 5 to 16",
        _ => "17 and more",
    }
}

/// What the variables lead to.
fn reachable(heap: &Heap) -> BTreeSet<Id> {
    let mut waiting: Vec<Id> = Vec::new();
    for t in 0..heap.limits.threads as usize {
        waiting.extend((0..heap.limits.variables as usize).filter_map(|v| heap.variable(t, v)));
    }
    let mut found = BTreeSet::new();
    while let Some(id) = waiting.pop() {
        if found.insert(id) {
            waiting.extend(heap.references(id).iter().flatten());
        }
    }
    found
}
