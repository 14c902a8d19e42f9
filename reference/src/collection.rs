//! A collection of the control space held to 02's W5 in a second way: what is kept round by round, its cells by the objects alone.

use crate::law;
use epochs::heap::{Heap, Id};
use epochs::rules::Region;
use std::collections::BTreeSet;

pub fn collected(before: &Heap, after: &Heap) -> Result<(), String> {
    let reached = reached(before);
    let (space, others): (Vec<Id>, Vec<Id>) = before.ids().partition(|&id| before.region(id) == Region::Control);
    let live: BTreeSet<Id> = after.ids().collect();
    law(space.iter().all(|id| live.contains(id) == reached.contains(id)), "of the control space what is reached is kept")?;
    law(others.iter().all(|id| live.contains(id)) && live.len() == others.len() + reached.len(), "other regions keep their objects")?;
    law(after.made() == before.made(), "a collection makes nothing")?;
    let freed = space.len() - reached.len();
    law(after.freed() == before.freed().wrapping_add(freed as u32), "what a collection frees counts as freed")?;
    for &id in &live {
        let same = after.region(id) == before.region(id) && after.numbers(id) == before.numbers(id);
        law(same && after.references(id) == before.references(id), "what is kept is as it was")?;
    }
    for t in 0..before.limits.threads as usize {
        law(after.variables(t) == before.variables(t) && after.depth(t) == before.depth(t), "variables and depths are as they were")?;
    }
    packed(before, after, &space, &reached)?;
    law(others.iter().all(|&id| after.cell(id) == before.cell(id)), "objects of other regions keep their cells")?;
    let mut again = after.clone();
    law(again.obey([11, 0, 0, 0, 0]) == Ok(0) && again == *after, "a second collection changes nothing")
}

/// The control space's objects that a variable or a slot outside leads to: those held, and in each round those that a slot of one found
/// before points to, until a round finds none.
fn reached(heap: &Heap) -> BTreeSet<Id> {
    let inside = |id: &Id| heap.region(*id) == Region::Control;
    let threads = 0..heap.limits.threads as usize;
    let variables = threads.flat_map(|t| heap.variables(t).iter().flatten().copied());
    let slots = heap.ids().filter(|id| !inside(id)).flat_map(|id| heap.references(id).iter().flatten().copied());
    let mut reached: BTreeSet<Id> = variables.chain(slots).filter(inside).collect();
    loop {
        let next = reached.iter().flat_map(|&id| heap.references(id).iter().flatten().copied());
        let found: Vec<Id> = next.filter(|id| inside(id) && !reached.contains(id)).collect();
        if found.is_empty() {
            return reached;
        }
        reached.extend(found);
    }
}

/// By old cell, sixteen to a page, on the pages that the space had, from the lowest; and no page has changed its owner but those that
/// became free.
fn packed(before: &Heap, after: &Heap, space: &[Id], kept: &BTreeSet<Id>) -> Result<(), String> {
    let own: BTreeSet<usize> = space.iter().map(|&id| before.cell(id) / 16).collect();
    let by_cell: BTreeSet<(usize, Id)> = kept.iter().map(|&id| (before.cell(id), id)).collect();
    let places = own.iter().flat_map(|page| (0..16).map(move |place| 16 * page + place));
    law(by_cell.iter().map(|&(_, id)| after.cell(id)).eq(places.take(kept.len())), "the k-th that is kept goes to the k-th place")?;
    law(by_cell.iter().all(|&(cell, id)| after.cell(id) <= cell), "nothing goes up")?;
    let filled: BTreeSet<usize> = own.iter().copied().take(kept.len().div_ceil(16)).collect();
    for (place, page) in after.pages().iter().enumerate() {
        let same = *page == before.pages()[place];
        let holds = if filled.contains(&place) { page.owner == Some(Region::Control) } else { page.owner.is_none() };
        law(if own.contains(&place) { holds } else { same }, "the space's pages without an object become free, and no other page changes")?;
    }
    Ok(())
}
