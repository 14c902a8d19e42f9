//! Cells, pages and words held to 02's W3 and W6 in a second way: cells by the objects alone, a whole end at once, and the words by reading them.

use crate::law;
use epochs::heap::{Heap, Id};
use epochs::rules::Region;
use epochs::words::Words;
use std::collections::{BTreeMap, BTreeSet};

/// Objects lie on their region's pages, in the cells in use and one in each; a region of n objects has n / 16 pages, rounded up, and at
/// most one that is partly filled.
pub fn stand(heap: &Heap) -> Result<(), String> {
    let mut found: BTreeMap<usize, Vec<(usize, Region)>> = BTreeMap::new();
    for id in heap.ids() {
        found.entry(heap.cell(id) / 16).or_default().push((heap.cell(id) % 16, heap.region(id)));
    }
    law(found.keys().all(|&page| page < heap.pages().len()), "every cell is one of the heap's")?;
    let mut regions: BTreeMap<Region, (usize, usize, usize)> = BTreeMap::new();
    for (place, page) in heap.pages().iter().enumerate() {
        let mut cells = found.remove(&place).unwrap_or_default();
        cells.sort();
        law(cells.iter().map(|cell| cell.0).eq(0..page.used), "a page uses its first cells, for an object each")?;
        law(cells.iter().all(|cell| Some(cell.1) == page.owner), "an object lies on a page of its region")?;
        law(page.owner.is_some() == (page.used > 0), "a page is free if it has no object")?;
        if let Some(region) = page.owner {
            let (objects, pages, partly) = regions.entry(region).or_default();
            *objects += page.used;
            *pages += 1;
            *partly += usize::from(page.used < 16);
        }
    }
    law(regions.values().all(|&(objects, pages, _)| pages == (objects + 15) / 16), "n objects have n / 16 pages, rounded up")?;
    law(regions.values().all(|&(_, _, partly)| partly <= 1), "a region has at most one partly filled page")?;
    let free = heap.pages().iter().filter(|page| page.owner.is_none()).count();
    law(free == heap.free_pages(), "the free pages are as many as the counts of objects leave")
}

/// The pages without an object, the highest-numbered first; and the cells that are left on the region's partly filled page.
fn room(heap: &Heap, region: Region) -> (Vec<usize>, Vec<usize>) {
    let used: BTreeSet<usize> = heap.ids().map(|id| heap.cell(id) / 16).collect();
    let free = (0..heap.limits.pages as usize).rev().filter(|page| !used.contains(page)).collect();
    let cells: BTreeSet<usize> = heap.ids().filter(|&id| heap.region(id) == region).map(|id| heap.cell(id)).collect();
    let pages: BTreeSet<usize> = cells.iter().map(|cell| cell / 16).collect();
    let left = pages.iter().flat_map(|page| 16 * page..16 * page + 16).filter(|cell| !cells.contains(cell)).collect();
    (free, left)
}

/// The object that was made took its cell, and no other object moved.
pub fn made(before: &Heap, after: &Heap, id: Id) -> Result<(), String> {
    let (free, left) = room(before, after.region(id));
    let expected = left.first().copied().or(free.first().map(|page| 16 * page));
    law(
        Some(after.cell(id)) == expected,
        "a new object takes the first unused cell of its region's partly filled page, or of the highest free one",
    )?;
    law(before.ids().all(|id| before.cell(id) == after.cell(id)), "a new object moves no other")
}

/// The end of r: for each target in turn, its survivors by old cell fill up the partly filled page and then as many of the highest pages
/// that were free before and that no target before it took. Nothing else moves, and r's pages are free afterwards.
pub fn ended(before: &Heap, after: &Heap, r: Region) -> Result<(), String> {
    let live: BTreeSet<Id> = after.ids().collect();
    let mut targets: BTreeMap<Region, Vec<(usize, Id)>> = BTreeMap::new();
    for id in before.ids() {
        if before.region(id) != r {
            law(before.cell(id) == after.cell(id), "what lies outside the ending region keeps its cell")?;
        } else if live.contains(&id) {
            targets.entry(after.region(id)).or_default().push((before.cell(id), id));
        }
    }
    let (free, _) = room(before, r);
    let mut taken = 0;
    for (region, mut survivors) in targets {
        survivors.sort();
        let (_, mut cells) = room(before, region);
        let pages = survivors.len().saturating_sub(cells.len()).div_ceil(16);
        for page in &free[taken..taken + pages] {
            cells.extend(16 * page..16 * page + 16);
        }
        taken += pages;
        let old_to_new = survivors.iter().map(|&(_, id)| after.cell(id));
        law(
            old_to_new.eq(cells.into_iter().take(survivors.len())),
            "survivors are copied by target, then by old cell, as new objects would be",
        )?;
    }
    let now_used: BTreeSet<usize> = (0..after.pages().len()).filter(|&page| after.pages()[page].owner.is_some()).collect();
    let newly: Vec<usize> = free.iter().copied().filter(|page| now_used.contains(page)).collect();
    law(newly == free[..taken], "an end takes the highest free pages, as many as question 13 counts")?;
    let owned = |page: usize| before.pages()[page].owner == Some(r);
    law(now_used.iter().all(|&page| !owned(page)), "the pages of the ending region are free afterwards")
}

/// The words alone, read as 01 and 02 lay them out.
pub fn words(heap: &Heap) -> Result<(), String> {
    let Words { cells, remember, tables, chains } = Words::of(heap);
    let [t, v, d, p, n] = [0, 1, 2, 3, 4].map(|i| tables[i] as usize);
    law([t, v, d, p, n].map(|size| size as u32) == sizes(heap), "the tables begin with the sizes")?;
    law(cells.len() == 256 * p && remember.len() == 2 * n + 2 && tables.len() == t * (v + d + 1) + 3 * p + 8, "the lengths are 01's")?;
    let (depths, rest) = tables[5..].split_at(t);
    let (variables, rest) = rest.split_at(t * v);
    let (owners, rest) = rest.split_at(p);
    let (used, rest) = rest.split_at(p);
    let (working, rest) = rest.split_at(p);
    let (objects, counters) = rest.split_at(1 + t * d);
    law(working.iter().all(|&word| word == 0), "working words are zero")?;
    law(counters == [heap.made(), heap.freed()], "objects made and freed stand at the end")?;
    let open = |region: usize| region == 1 || (region > 1 && (region - 2) % d < depths[(region - 2) / d] as usize);
    let mut found = vec![0; 1 + t * d];
    let mut crossing = Vec::new();
    let is_reference = |word: u32| word == 0 || (word as usize <= 16 * p && (word - 1) % 16 < used[(word as usize - 1) / 16]);
    for page in 0..p {
        let owner = owners[page] as usize;
        law(if owner == 0 { used[page] == 0 } else { open(owner) && (1..=16).contains(&used[page]) }, "a used page has an open region")?;
        for place in 0..16 {
            let cell = &cells[256 * page + 16 * place..][..16];
            if place >= used[page] as usize {
                law(cell.iter().all(|&word| word == 0), "cells not in use are zero")?;
                continue;
            }
            found[owner - 1] += 1;
            let (references, numbers) = (cell[0] as usize / 16, cell[0] as usize % 16);
            law(references + numbers <= 14 && cell[1] == 0, "a cell in use has at most 14 fields, and its working word is zero")?;
            law(cell[2 + references + numbers..].iter().all(|&word| word == 0), "the words after the fields are zero")?;
            for field in 2..2 + references {
                law(is_reference(cell[field]), "a reference is null or names a cell in use")?;
                let to = if cell[field] == 0 { 1 } else { owners[(cell[field] as usize - 1) / 16] };
                if to != 1 && to as usize != owner {
                    crossing.push(((256 * page + 16 * place + field) as u32, to));
                }
            }
        }
    }
    law(found == objects, "the counts of objects agree")?;
    law(variables.iter().all(|&word| is_reference(word)), "a variable is null or names a cell in use")?;
    law(remember[..2] == [n as u32, crossing.len() as u32], "the remember table begins with N and the entries used")?;
    let slots = crossing.iter().map(|entry| entry.0).chain(std::iter::repeat(0)).take(n);
    let regions = crossing.iter().map(|entry| entry.1).chain(std::iter::repeat(0)).take(n);
    law(remember[2..2 + n].iter().copied().eq(slots), "the entries are the crossing slots, by rising position")?;
    law(remember[2 + n..].iter().copied().eq(regions), "each with the region that it points into")?;
    law(chains.len() == 1 + t * d + n && chains[0] == 0, "the chains begin with T × D + 1 words, of which the control space's is 0")?;
    let mut chained = BTreeSet::new();
    for region in 1..=1 + t * d {
        let chain = followed(&chains, n, region)?;
        law(chain.windows(2).all(|two| two[0] < two[1]), "a chain rises")?;
        let own = (0..crossing.len()).filter(|&place| crossing[place].1 as usize == region);
        law(own.eq(chain.iter().copied()), "the chain of a region names the entries that point into it, each once")?;
        chained.extend(chain);
    }
    law(chained.into_iter().eq(0..crossing.len()), "every entry is in a chain")?;
    law(chains[1 + t * d + crossing.len()..].iter().all(|&word| word == 0), "unused words of the chains are zero")
}

/// The places of the entries that a region's chain names, in the order of the chain; n next-entry words stand at the end.
fn followed(chains: &[u32], n: usize, region: usize) -> Result<Vec<usize>, String> {
    let (first, next) = chains.split_at(chains.len() - n);
    let mut chain = Vec::new();
    let mut word = first[region - 1] as usize;
    while word != 0 {
        law(word <= n && chain.len() < n, "a chain names entries, and ends")?;
        chain.push(word - 1);
        word = next[word - 1] as usize;
    }
    Ok(chain)
}

/// Where an end looks for its holding slots: the chain of its region leads to all slots outside the region that point into it, each once.
pub fn holding_slots(before: &Heap, thread: usize) -> Result<(), String> {
    let (r, n) = (before.innermost(thread), before.limits.entries as usize);
    let mut slots: Vec<usize> = Vec::new();
    for id in before.ids().filter(|&id| before.region(id) != r) {
        for (field, to) in before.references(id).iter().enumerate() {
            slots.extend(to.filter(|&to| before.region(to) == r).map(|_| 16 * before.cell(id) + 2 + field));
        }
    }
    slots.sort();
    let Words { remember, chains, .. } = Words::of(before);
    let number = 1 + thread * before.limits.depth as usize + before.depth(thread);
    let named = followed(&chains, n, number)?.into_iter().map(|place| remember[2 + place] as usize);
    law(named.eq(slots), "the chain of the ending region leads to all slots outside that hold its objects, each once")
}

fn sizes(heap: &Heap) -> [u32; 5] {
    let limits = heap.limits;
    [limits.threads, limits.variables, limits.depth, limits.pages, limits.entries]
}
