//! What a collection of the control space does (02, W5): who holds what, and what is kept.

use crate::heap::{Heap, Id};
use crate::rules::Region;

/// What a collection would do with the objects of the control space.
pub struct Collecting {
    /// By their cells, the order in which they are packed.
    pub kept: Vec<Id>,
    pub freed: Vec<Id>,
}

impl Heap {
    pub fn collecting(&self) -> Collecting {
        let mut found = vec![false; self.id_limit()];
        let mut waiting = self.held_in_control();
        while let Some(id) = waiting.pop() {
            if !found[id] {
                found[id] = true;
                // Chains stay inside the control space.
                waiting.extend(self.in_control(self.references(id)));
            }
        }
        let (mut kept, freed): (Vec<Id>, Vec<Id>) = self.members(Region::Control).iter().partition(|&&id| found[id]);
        kept.sort_by_key(|&id| self.cell(id));
        Collecting { kept, freed }
    }

    /// The objects of the control space that a variable holds, or a slot of an object in an open region, whoever reaches that object. There
    /// is one entry for each holder.
    pub fn held_in_control(&self) -> Vec<Id> {
        let mut held = Vec::new();
        for thread in 0..self.limits.threads as usize {
            held.extend(self.in_control(self.variables(thread)));
        }
        for id in self.ids() {
            if self.region(id) != Region::Control {
                held.extend(self.in_control(self.references(id)));
            }
        }
        held
    }

    /// Those of the references that lead into the control space.
    fn in_control<'a>(&'a self, references: &'a [Option<Id>]) -> impl Iterator<Item = Id> + 'a {
        references.iter().flatten().copied().filter(|&id| self.region(id) == Region::Control)
    }
}
