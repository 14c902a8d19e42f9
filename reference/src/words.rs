//! The lent words of 01's "Sizes and tables", with 02's W1, W2, W3 and W6. The heap determines every one of them.

use crate::heap::{Heap, Id};
use crate::rules::{crosses, Region};
use std::io::{self, Write};

/// The four slices, each as long as it has to be.
pub struct Words {
    pub cells: Vec<u32>,
    pub remember: Vec<u32>,
    pub tables: Vec<u32>,
    pub chains: Vec<u32>,
}

impl Words {
    pub fn of(heap: &Heap) -> Words {
        Words { cells: cells(heap), remember: remember(heap), tables: tables(heap), chains: chains(heap) }
    }

    pub fn slices(&self) -> [(&'static str, &[u32]); 4] {
        [("cells", &self.cells), ("remember", &self.remember), ("tables", &self.tables), ("chains", &self.chains)]
    }

    /// For each slice a line with its name and length, then its words, sixteen to a line.
    pub fn print(&self, output: &mut impl Write) -> io::Result<()> {
        for (name, words) in self.slices() {
            writeln!(output, "{name} {}", words.len())?;
            for line in words.chunks(16) {
                write!(output, "{}", line[0])?;
                for word in &line[1..] {
                    write!(output, " {word}")?;
                }
                writeln!(output)?;
            }
        }
        Ok(())
    }
}

/// 0 for null, else 1 + cell number.
fn reference(heap: &Heap, to: Option<Id>) -> u32 {
    match to {
        Some(id) => 1 + heap.cell(id) as u32,
        None => 0,
    }
}

/// 1 for the control space, 1 + t × D + k for thread t at level k.
fn number(heap: &Heap, region: Region) -> u32 {
    match region {
        Region::Control => 1,
        Region::Epoch { thread, level } => 1 + thread as u32 * heap.limits.depth + level as u32,
    }
}

fn cells(heap: &Heap) -> Vec<u32> {
    let mut words = vec![0; 256 * heap.limits.pages as usize];
    for id in heap.ids() {
        let (references, numbers) = (heap.references(id), heap.numbers(id));
        let cell = &mut words[16 * heap.cell(id)..][..16];
        cell[0] = (16 * references.len() + numbers.len()) as u32;
        for (field, &to) in references.iter().enumerate() {
            cell[2 + field] = reference(heap, to);
        }
        cell[2 + references.len()..][..numbers.len()].copy_from_slice(numbers);
    }
    words
}

/// The crossing slots: where each stands in the cells, and the region that it points into, by rising position.
fn entries(heap: &Heap) -> Vec<(u32, u32)> {
    let mut entries = Vec::new();
    for id in heap.ids() {
        for (field, &reference) in heap.references(id).iter().enumerate() {
            if let Some(to) = reference {
                if crosses(heap.region(id), heap.region(to)) {
                    entries.push(((16 * heap.cell(id) + 2 + field) as u32, number(heap, heap.region(to))));
                }
            }
        }
    }
    entries.sort();
    entries
}

fn remember(heap: &Heap) -> Vec<u32> {
    let most = heap.limits.entries as usize;
    let entries = entries(heap);
    let mut words = vec![0; 2 + 2 * most];
    words[0] = most as u32;
    words[1] = entries.len() as u32;
    for (place, (slot, region)) in entries.into_iter().enumerate() {
        words[2 + place] = slot;
        words[2 + most + place] = region;
    }
    words
}

fn tables(heap: &Heap) -> Vec<u32> {
    let limits = heap.limits;
    let threads = 0..limits.threads as usize;
    let pages = heap.pages();
    let mut words = vec![limits.threads, limits.variables, limits.depth, limits.pages, limits.entries];
    words.extend(threads.clone().map(|t| heap.depth(t) as u32));
    for t in threads.clone() {
        words.extend(heap.variables(t).iter().map(|&variable| reference(heap, variable)));
    }
    words.extend(pages.iter().map(|page| page.owner.map_or(0, |region| number(heap, region))));
    words.extend(pages.iter().map(|page| page.used as u32));
    words.extend(pages.iter().map(|_| 0));
    words.push(heap.members(Region::Control).len() as u32);
    for t in threads {
        for level in 1..=limits.depth as usize {
            words.push(if level <= heap.depth(t) { heap.members(Region::at(t, level)).len() as u32 } else { 0 });
        }
    }
    words.push(heap.made());
    words.push(heap.freed());
    words
}

/// For each region, by its number, its first entry; then for each entry the next one into the same region. An entry is named by 1 + its
/// place, 0 is none. No entry points into the control space.
fn chains(heap: &Heap) -> Vec<u32> {
    let regions = heap.limits.threads * heap.limits.depth + 1;
    let entries = entries(heap);
    let into = |region: u32, from: usize| match (from..entries.len()).find(|&place| entries[place].1 == region) {
        Some(place) => 1 + place as u32,
        None => 0,
    };
    let mut words: Vec<u32> = (1..=regions).map(|region| into(region, 0)).collect();
    words.extend(entries.iter().enumerate().map(|(place, entry)| into(entry.1, place + 1)));
    words.resize((regions + heap.limits.entries) as usize, 0);
    words
}
