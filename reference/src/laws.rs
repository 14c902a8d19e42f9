//! `laws COUNT SEED`: holds this folder's heap to documents 01 and 02 (W2, W3, W5, W6) in a second way, over generated scripts.
//!
//! After every command: the answer is that of the heap that never frees, 13 and 14 aside; the objects are paired with its objects; a
//! refused command has changed nothing; the counts agree with what is found by looking; and objects made and freed are the new objects
//! that were done and the objects of the heap that never frees which have lost their partner. Before every end: the survivors and their
//! regions are worked out again, word for word as 01 defines them, holder by holder, and the chain of the region leads to the slots that hold
//! (W6). Before every collection: what it keeps is worked out again, round by round; a second one right after it would change nothing. After
//! a new object, a store, an end and a collection: the cells are those of W3 and W5, found by the objects alone, and the words hold whole
//! tables and their chains, read by the layout alone.

mod collection;
mod placement;

use epochs::counted::commas;
use epochs::forever::Forever;
use epochs::heap::{Heap, Id};
use epochs::lines::{five_numbers, sizes};
use epochs::rules::Region;
use epochs::scripts::dump_script;
use std::collections::{BTreeMap, BTreeSet};

/// Scripts on more pages are left out: every command looks at all objects.
const MOST_PAGES: u32 = 64;

fn main() {
    let arguments: Vec<u64> = std::env::args().skip(1).map(|word| word.parse().expect("usage: laws COUNT SEED")).collect();
    let [count, seed] = arguments[..] else { panic!("usage: laws COUNT SEED") };
    let (mut commands, mut ends, mut collections) = (0, 0, 0);
    for i in 0..count {
        let text = dump_script(seed + i).text;
        let mut lines = text.split(|&byte| byte == b'\n');
        let Some(limits) = lines.next().and_then(sizes).filter(|limits| limits.pages <= MOST_PAGES) else { continue };
        let mut both = Both {
            heap: Heap::new(limits),
            forever: Forever::new(limits.threads, limits.variables, limits.depth),
            partners: BTreeMap::new(),
            new_objects: 0,
        };
        for (k, line) in lines.enumerate() {
            let Some(words) = five_numbers(line) else { break };
            commands += 1;
            ends += usize::from(words[0] == 2);
            collections += usize::from(words[0] == 11);
            if let Err(law) = both.step(words) {
                println!("seed {}, line {}: {law}", seed + i, k + 2);
                std::process::exit(1);
            }
        }
    }
    println!(
        "{} scripts, {} commands, {} of them ends and {} collections, every law holds",
        commas(count as usize),
        commas(commands),
        commas(ends),
        commas(collections)
    );
}

struct Both {
    heap: Heap,
    forever: Forever,
    partners: BTreeMap<Id, usize>,
    /// How many commands of code 3 were done.
    new_objects: u32,
}

fn law(holds: bool, text: &str) -> Result<(), String> {
    if holds {
        Ok(())
    } else {
        Err(text.to_string())
    }
}

impl Both {
    fn step(&mut self, words: [u32; 5]) -> Result<(), String> {
        let [code, thread, a, ..] = words;
        let thread = thread as usize;
        let before = self.heap.clone();
        let answer = self.heap.obey(words);
        let is_end = code == 2 && answer != Err(6) && answer != Err(7) && answer != Err(8) && answer != Err(12);
        if is_end {
            placement::holding_slots(&before, thread)?;
            by_definition(&before, &self.heap, thread, answer)?;
        }
        if answer.is_err() {
            law(self.heap == before, "a refused command changes nothing")?;
        }
        if answer != Err(13) && answer != Err(14) {
            let expected = match self.forever.obey(words) {
                (0, value) => Ok(value),
                (number, _) => Err(number),
            };
            law(answer == expected, "the answer is that of the heap that never frees")?;
        }
        if answer.is_ok() && code == 3 {
            self.new_objects = self.new_objects.wrapping_add(1);
            self.partners.insert(self.heap.variable(thread, a as usize).unwrap(), self.forever.objects.len() - 1);
        }
        if answer.is_ok() && [2, 11].contains(&code) {
            let live: BTreeSet<Id> = self.heap.ids().collect();
            self.partners.retain(|id, _| live.contains(id));
        }
        if answer.is_ok() && [2, 3, 7, 11].contains(&code) {
            match code {
                11 => collection::collected(&before, &self.heap)?,
                2 => placement::ended(&before, &self.heap, before.innermost(thread))?,
                3 => placement::made(&before, &self.heap, self.heap.variable(thread, a as usize).unwrap())?,
                _ => {}
            }
            placement::stand(&self.heap)?;
            placement::words(&self.heap)?;
        }
        self.paired()?;
        self.counted()?;
        looked_at(&self.heap)
    }

    /// Objects made, objects freed, and their total (02, W2).
    fn counted(&self) -> Result<(), String> {
        let paired: BTreeSet<usize> = self.partners.values().copied().collect();
        let lost = (0..self.forever.objects.len()).filter(|place| !paired.contains(place)).count();
        law(self.heap.made() == self.new_objects, "objects made are the new objects that were done")?;
        law(self.heap.freed() == lost as u32, "objects freed are those of the heap that never frees which lost their partner")?;
        law(self.heap.total() as u32 == self.heap.made().wrapping_sub(self.heap.freed()), "the total is made less freed")
    }

    /// The same object means paired.
    fn paired(&self) -> Result<(), String> {
        let partner = |id: Option<Id>| id.map(|id| self.partners.get(&id).copied());
        let ids: Vec<Id> = self.heap.ids().collect();
        law(ids.iter().all(|id| self.partners.contains_key(id)) && ids.len() == self.partners.len(), "every object has a partner")?;
        law(self.partners.values().collect::<BTreeSet<_>>().len() == ids.len(), "no two share a partner")?;
        for id in ids {
            let (references, numbers) = &self.forever.objects[self.partners[&id]];
            law(self.heap.numbers(id) == &numbers[..], "partners have the same numbers")?;
            let ours: Vec<_> = self.heap.references(id).iter().map(|&to| partner(to)).collect();
            let theirs: Vec<_> = references.iter().map(|&to| to.map(Some)).collect();
            law(ours == theirs, "references of partners lead to partners")?;
        }
        for t in 0..self.forever.depths.len() {
            law(self.heap.depth(t) == self.forever.depths[t] as usize, "depths agree")?;
            for v in 0..self.forever.variables[t].len() {
                law(partner(self.heap.variable(t, v)) == self.forever.variables[t][v].map(Some), "variables lead to partners")?;
            }
        }
        Ok(())
    }
}

/// The end of r by 01's sentences: for each holder alone, what a chain inside r reaches from what it holds, and what it calls for.
fn by_definition(before: &Heap, after: &Heap, ending_thread: usize, answer: Result<u32, u32>) -> Result<(), String> {
    let r = Region::Epoch { thread: ending_thread, level: before.depth(ending_thread) };
    let level_of = |region: Region| match region {
        Region::Control => 0,
        Region::Epoch { level, .. } => level,
    };
    let mut holders: Vec<(Id, usize)> = Vec::new();
    for id in before.ids().filter(|&id| before.region(id) != r) {
        for &to in before.references(id).iter().flatten().filter(|&&to| before.region(to) == r) {
            let outer = match before.region(id) {
                Region::Epoch { thread, level } if thread == ending_thread => level.min(level_of(r)),
                _ => 0,
            };
            holders.push((to, outer));
        }
    }
    for t in 0..before.limits.threads as usize {
        for held in (0..before.limits.variables as usize).filter_map(|v| before.variable(t, v)).filter(|&id| before.region(id) == r) {
            holders.push((held, if t == ending_thread { level_of(r) - 1 } else { 0 }));
        }
    }
    // The same two facts of several holders count once.
    holders.sort();
    holders.dedup();
    let mut levels: BTreeMap<Id, usize> = BTreeMap::new();
    for (held, called) in holders {
        let mut chain = BTreeSet::from([held]);
        let mut waiting = vec![held];
        while let Some(id) = waiting.pop() {
            for &to in before.references(id).iter().flatten().filter(|&&to| before.region(to) == r) {
                if chain.insert(to) {
                    waiting.push(to);
                }
            }
        }
        for id in chain {
            let level = levels.entry(id).or_insert(called);
            *level = called.min(*level);
        }
    }
    let region_after = |id: Id| {
        if before.region(id) != r {
            return Some(before.region(id));
        }
        levels.get(&id).map(|&level| if level == 0 { Region::Control } else { Region::Epoch { thread: ending_thread, level } })
    };
    let kept: Vec<Id> = before.ids().filter(|&id| region_after(id).is_some()).collect();

    // Pages and crossing slots, counted in the heap as it would be.
    let pages = |count: &dyn Fn(Region) -> usize| -> usize {
        let mut total = (count(Region::Control) + 15) / 16;
        for thread in 0..before.limits.threads as usize {
            for level in 1..=before.depth(thread) {
                let region = Region::Epoch { thread, level };
                if region != r {
                    total += (count(region) + 15) / 16;
                }
            }
        }
        total
    };
    let now = pages(&|region| before.ids().filter(|&id| before.region(id) == region).count());
    let then = pages(&|region| kept.iter().filter(|&&id| region_after(id) == Some(region)).count());
    let own = (before.ids().filter(|&id| before.region(id) == r).count() + 15) / 16;
    let free = before.limits.pages as usize - now - own;
    let mut crossing = 0;
    for &id in &kept {
        for &to in before.references(id).iter().flatten() {
            let target = region_after(to).ok_or("a kept object points to a freed one")?;
            crossing += usize::from(target != Region::Control && Some(target) != region_after(id));
        }
    }
    let expected = if then - now > free {
        Err(13)
    } else if crossing > before.limits.entries as usize {
        Err(14)
    } else {
        Ok(0)
    };
    law(answer == expected, "an end is done or refused as its definition says")?;
    if answer.is_ok() {
        law(after.ids().collect::<Vec<_>>() == kept, "the survivors are those of the definition")?;
        let freed = before.ids().count() - kept.len();
        law(after.freed() == before.freed().wrapping_add(freed as u32), "an end counts the objects that the definition frees")?;
        law(kept.iter().all(|&id| Some(after.region(id)) == region_after(id)), "each survivor is where the definition sends it")?;
        law(after.crossing_slots() == crossing, "as many crossing slots as the definition says")?;
        law(after.free_pages() == before.limits.pages as usize - then, "as many free pages as the definition says")?;
    }
    Ok(())
}

/// Counts and lists agree with what is found by looking at every object.
fn looked_at(heap: &Heap) -> Result<(), String> {
    let mut crossing = 0;
    for id in heap.ids() {
        for &to in heap.references(id).iter().flatten() {
            crossing += usize::from(heap.region(to) != heap.region(id) && heap.region(to) != Region::Control);
        }
    }
    law(crossing == heap.crossing_slots(), "crossing slots are counted right")?;
    law(crossing <= heap.limits.entries as usize, "at most N slots are crossing")?;
    let mut rows = 0;
    let mut used = 0;
    for row in heap.report() {
        let region = if row.level == 0 { Region::Control } else { Region::Epoch { thread: row.thread, level: row.level } };
        let found = heap.ids().filter(|&id| heap.region(id) == region).count();
        law(found == row.objects && found.div_ceil(16) == row.pages, "a row counts its region's objects and pages")?;
        rows += row.objects;
        used += row.pages;
    }
    law(rows == heap.ids().count(), "every object is in one open region")?;
    law(rows == heap.total(), "the total is the sum of the rows")?;
    law(used + heap.free_pages() == heap.limits.pages as usize, "used and free pages add up to P")
}
