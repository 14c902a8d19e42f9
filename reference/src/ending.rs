//! What the end of an epoch does: who holds what, what survives, and where it goes.

use crate::heap::{Heap, Id};
use crate::rules::{crosses, join, pages_for, Region};

/// What the end of a thread's innermost epoch would do.
pub struct Ending {
    /// By `Id`: the region of each object that is in the heap after the end.
    pub regions: Vec<Option<Region>>,
    /// In the order in which they are copied: by target region, the control space first, then by old cell (02, W3).
    pub survivors: Vec<Id>,
    pub freed: Vec<Id>,
    /// New pages for the regions that grow.
    pub new_pages: usize,
    /// Crossing slots afterwards.
    pub crossing: usize,
}

impl Heap {
    /// What the end of r, this thread's innermost epoch, would do. The thread has one open.
    pub fn ending(&self, thread: usize) -> Ending {
        let r = self.innermost(thread);

        // Outside r nothing moves. An object of r is in the heap afterwards only if the search below finds it.
        let mut regions = vec![None; self.id_limit()];
        for id in self.ids() {
            if self.region(id) != r {
                regions[id] = Some(self.region(id));
            }
        }

        // Every region called for lies around r, on the way from its parent to the control space. They are taken from the control
        // space inwards, so what is found is found first for the outermost region called for by a holder whose chain reaches it.
        let calls = self.calls(thread);
        let mut survivors = Vec::new();
        for level in 0..r.level() {
            let target = Region::at(thread, level);
            let mut waiting: Vec<Id> = calls.iter().filter(|call| call.1 == target).map(|call| call.0).collect();
            while let Some(id) = waiting.pop() {
                if regions[id].is_none() {
                    regions[id] = Some(target);
                    survivors.push(id);
                    // Chains stay inside r: everything else has its region already.
                    for &reference in self.references(id) {
                        if let Some(next) = reference {
                            waiting.push(next);
                        }
                    }
                }
            }
        }

        survivors.sort_by_key(|&id| (regions[id], self.cell(id)));

        let freed = self.members(r).iter().copied().filter(|&id| regions[id].is_none()).collect();
        let new_pages = self.new_pages(thread, &regions, &survivors);
        let crossing = self.crossing_with(&regions);
        Ending { regions, survivors, freed, new_pages, crossing }
    }

    /// The objects held of r, the thread's innermost epoch, each with the region its holder calls for. Holders are the slots outside r
    /// and all variables; there is one entry for each.
    pub fn calls(&self, thread: usize) -> Vec<(Id, Region)> {
        let r = self.innermost(thread);
        let parent = Region::at(thread, r.level() - 1);
        let mut calls = Vec::new();
        for id in self.ids() {
            let from = self.region(id);
            if from != r {
                for &reference in self.references(id) {
                    if let Some(held) = reference {
                        if self.region(held) == r {
                            calls.push((held, join(r, from)));
                        }
                    }
                }
            }
        }
        for owner in 0..self.limits.threads as usize {
            for &variable in self.variables(owner) {
                if let Some(held) = variable {
                    if self.region(held) == r {
                        calls.push((held, if owner == thread { parent } else { Region::Control }));
                    }
                }
            }
        }
        calls
    }

    /// How many pages more the regions around the thread's innermost one need for the survivors that go to them.
    fn new_pages(&self, thread: usize, regions: &[Option<Region>], survivors: &[Id]) -> usize {
        let mut pages = 0;
        for level in 0..self.depth(thread) {
            let target = Region::at(thread, level);
            let now = self.members(target).len();
            let coming = survivors.iter().filter(|&&id| regions[id] == Some(target)).count();
            pages += pages_for(now + coming) - pages_for(now);
        }
        pages
    }

    /// How many slots are crossing when only these objects are in the heap, in these regions.
    fn crossing_with(&self, regions: &[Option<Region>]) -> usize {
        let mut crossing = 0;
        for id in 0..regions.len() {
            if let Some(from) = regions[id] {
                for &reference in self.references(id) {
                    if let Some(to) = reference {
                        // What an object of the heap points to is in the heap too.
                        if crosses(from, regions[to].unwrap()) {
                            crossing += 1;
                        }
                    }
                }
            }
        }
        crossing
    }
}
