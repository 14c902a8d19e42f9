//! The epoch heap of documents 01 and 02 (W2, W3, W5) as a graph of objects.
//!
//! An object knows its region and its cell, a thread is a stack of open epochs, an epoch is the list of its objects. What is asked and
//! counted goes by the graph: pages by the number of objects, crossing slots by looking at the slots. Which cells and pages those are
//! stands beside it. There is no remember table: its entries are read from the graph.

use crate::pages::{Page, Pages};
use crate::rules::{crosses, pages_for, Region};

/// An object's place in the list of objects. It is its identity: moving an object to another region does not change it.
pub type Id = usize;

/// T, V, D, P and N, in that order.
#[derive(Clone, Copy, PartialEq, Debug)]
pub struct Limits {
    pub threads: u32,
    pub variables: u32,
    pub depth: u32,
    pub pages: u32,
    pub entries: u32,
}

#[derive(Clone, PartialEq)]
struct Object {
    region: Region,
    cell: usize,
    references: Vec<Option<Id>>,
    numbers: Vec<u32>,
}

#[derive(Clone, PartialEq)]
struct Thread {
    variables: Vec<Option<Id>>,
    /// The objects of each open epoch, level 1 first; the depth is the length.
    epochs: Vec<Vec<Id>>,
}

#[derive(Clone, PartialEq)]
pub struct Heap {
    pub limits: Limits,
    threads: Vec<Thread>,
    control: Vec<Id>,
    /// `None` is a place that no object has now.
    objects: Vec<Option<Object>>,
    unused: Vec<Id>,
    pages: Pages,
    /// How many slots are crossing.
    crossing: usize,
    /// Objects made and objects freed since the heap is there, each modulo 4,294,967,296 (02, W2).
    made: u32,
    freed: u32,
}

/// A row of the report.
pub struct Row {
    pub thread: usize,
    pub level: usize,
    pub objects: usize,
    pub pages: usize,
}

impl Heap {
    pub fn new(limits: Limits) -> Heap {
        let thread = Thread { variables: vec![None; limits.variables as usize], epochs: Vec::new() };
        Heap {
            limits,
            threads: vec![thread; limits.threads as usize],
            control: Vec::new(),
            objects: Vec::new(),
            unused: Vec::new(),
            pages: Pages::new(limits.pages as usize),
            crossing: 0,
            made: 0,
            freed: 0,
        }
    }

    /// One command: code, thread, a, b, c. `Ok` has the value, `Err` the number of the first question answered "no".
    pub fn obey(&mut self, [code, thread, a, b, c]: [u32; 5]) -> Result<u32, u32> {
        if code < 1 || code > 11 {
            return Err(6);
        }
        if thread >= self.limits.threads {
            return Err(7);
        }
        if !self.operands_fit(code, a, b, c) {
            return Err(8);
        }
        let t = thread as usize;
        let [a_, b_, c_] = [a as usize, b as usize, c as usize];
        match code {
            1 => self.start(t),
            2 => self.end(t),
            3 => self.make(t, a_, b_, c_),
            4 => {
                self.threads[t].variables[a_] = self.threads[c_].variables[b_];
                Ok(0)
            }
            5 => {
                self.threads[t].variables[a_] = None;
                Ok(0)
            }
            6 => {
                let object = self.object_with_reference(t, b_, c)?;
                let found = self.get(object).references[c_];
                self.threads[t].variables[a_] = found;
                Ok(if found.is_some() { 1 } else { 0 })
            }
            7 => {
                let object = self.object_with_reference(t, a_, b)?;
                self.store(object, b_, self.threads[t].variables[c_])
            }
            8 => {
                let object = self.object_with_number(t, a_, b)?;
                Ok(self.get(object).numbers[b_])
            }
            9 => {
                let object = self.object_with_number(t, a_, b)?;
                self.get_mut(object).numbers[b_] = c;
                Ok(0)
            }
            10 => {
                let same = self.threads[t].variables[a_] == self.threads[t].variables[b_];
                Ok(if same { 1 } else { 0 })
            }
            _ => self.collect(),
        }
    }

    /// Question 8: variables below V, for code 4 c below T, unused operands 0, and for code 3 b + c at most 14.
    fn operands_fit(&self, code: u32, a: u32, b: u32, c: u32) -> bool {
        let variable = |x: u32| x < self.limits.variables;
        match code {
            1 | 2 | 11 => a == 0 && b == 0 && c == 0,
            3 => variable(a) && u64::from(b) + u64::from(c) <= 14,
            4 => variable(a) && variable(b) && c < self.limits.threads,
            5 => variable(a) && b == 0 && c == 0,
            6 => variable(a) && variable(b),
            7 => variable(a) && variable(c),
            8 => variable(a) && c == 0,
            9 => variable(a),
            _ => variable(a) && variable(b) && c == 0,
        }
    }

    /// Questions 9 and 10 for a reference field.
    fn object_with_reference(&self, thread: usize, variable: usize, field: u32) -> Result<Id, u32> {
        let object = self.threads[thread].variables[variable].ok_or(9u32)?;
        if (field as usize) < self.get(object).references.len() {
            Ok(object)
        } else {
            Err(10)
        }
    }

    /// Questions 9 and 10 for a number field.
    fn object_with_number(&self, thread: usize, variable: usize, field: u32) -> Result<Id, u32> {
        let object = self.threads[thread].variables[variable].ok_or(9u32)?;
        if (field as usize) < self.get(object).numbers.len() {
            Ok(object)
        } else {
            Err(10)
        }
    }

    fn start(&mut self, thread: usize) -> Result<u32, u32> {
        if self.depth(thread) >= self.limits.depth as usize {
            return Err(11);
        }
        self.threads[thread].epochs.push(Vec::new());
        Ok(0)
    }

    fn make(&mut self, thread: usize, variable: usize, references: usize, numbers: usize) -> Result<u32, u32> {
        let region = self.innermost(thread);
        let now = self.members(region).len();
        if pages_for(now + 1) - pages_for(now) > self.free_pages() {
            return Err(13);
        }
        let cell = self.pages.take(region);
        let object = Object { region, cell, references: vec![None; references], numbers: vec![0; numbers] };
        let id = match self.unused.pop() {
            Some(id) => {
                self.objects[id] = Some(object);
                id
            }
            None => {
                self.objects.push(Some(object));
                self.objects.len() - 1
            }
        };
        self.members_mut(region).push(id);
        self.threads[thread].variables[variable] = Some(id);
        self.made = self.made.wrapping_add(1);
        Ok(0)
    }

    fn store(&mut self, object: Id, field: usize, value: Option<Id>) -> Result<u32, u32> {
        let before = self.get(object).references[field];
        let others = self.crossing - usize::from(self.slot_crosses(object, before));
        let afterwards = others + usize::from(self.slot_crosses(object, value));
        if afterwards > self.limits.entries as usize {
            return Err(14);
        }
        self.get_mut(object).references[field] = value;
        self.crossing = afterwards;
        Ok(0)
    }

    fn end(&mut self, thread: usize) -> Result<u32, u32> {
        if self.depth(thread) == 0 {
            return Err(12);
        }
        let r = self.innermost(thread);
        let ending = self.ending(thread);
        if ending.new_pages > self.free_pages() {
            return Err(13);
        }
        if ending.crossing > self.limits.entries as usize {
            return Err(14);
        }
        self.threads[thread].epochs.pop();
        for id in ending.survivors {
            let region = ending.regions[id].unwrap();
            let cell = self.pages.take(region);
            let object = self.get_mut(id);
            object.region = region;
            object.cell = cell;
            self.members_mut(region).push(id);
        }
        self.pages.give_back(r);
        self.free(ending.freed);
        self.crossing = ending.crossing;
        Ok(0)
    }

    /// A collection of the control space (02, W5). No question is left to ask: it takes no page, and no slot becomes crossing.
    fn collect(&mut self) -> Result<u32, u32> {
        let collecting = self.collecting();
        let cells = self.pages.pack(Region::Control, collecting.kept.len());
        for (&id, cell) in collecting.kept.iter().zip(cells) {
            self.get_mut(id).cell = cell;
        }
        self.control = collecting.kept;
        self.crossing -= collecting.freed.iter().map(|&id| self.crossing_slots_of(id)).sum::<usize>();
        self.free(collecting.freed);
        Ok(0)
    }

    fn free(&mut self, objects: Vec<Id>) {
        for id in objects {
            self.objects[id] = None;
            self.unused.push(id);
            self.freed = self.freed.wrapping_add(1);
        }
    }

    /// The control space first, then the open regions thread by thread, level by level.
    pub fn report(&self) -> Vec<Row> {
        let row = |thread, level, objects| Row { thread, level, objects, pages: pages_for(objects) };
        let mut rows = vec![row(0, 0, self.control.len())];
        for (t, thread) in self.threads.iter().enumerate() {
            for (k, epoch) in thread.epochs.iter().enumerate() {
                rows.push(row(t, k + 1, epoch.len()));
            }
        }
        rows
    }

    pub fn free_pages(&self) -> usize {
        let mut used = pages_for(self.control.len());
        for thread in &self.threads {
            for epoch in &thread.epochs {
                used += pages_for(epoch.len());
            }
        }
        self.limits.pages as usize - used
    }

    pub fn crossing_slots(&self) -> usize {
        self.crossing
    }

    pub fn crossing_slots_of(&self, id: Id) -> usize {
        self.references(id).iter().filter(|&&value| self.slot_crosses(id, value)).count()
    }

    pub fn made(&self) -> u32 {
        self.made
    }

    pub fn freed(&self) -> u32 {
        self.freed
    }

    /// Live objects: the sum of the rows.
    pub fn total(&self) -> usize {
        self.report().iter().map(|row| row.objects).sum()
    }

    pub fn depth(&self, thread: usize) -> usize {
        self.threads[thread].epochs.len()
    }

    pub fn innermost(&self, thread: usize) -> Region {
        Region::at(thread, self.depth(thread))
    }

    pub fn variable(&self, thread: usize, variable: usize) -> Option<Id> {
        self.threads[thread].variables[variable]
    }

    pub fn variables(&self, thread: usize) -> &[Option<Id>] {
        &self.threads[thread].variables
    }

    /// Every `Id` is below this.
    pub fn id_limit(&self) -> usize {
        self.objects.len()
    }

    /// Every object now in the heap.
    pub fn ids(&self) -> impl Iterator<Item = Id> + '_ {
        (0..self.objects.len()).filter(|&id| self.objects[id].is_some())
    }

    pub fn region(&self, id: Id) -> Region {
        self.get(id).region
    }

    pub fn cell(&self, id: Id) -> usize {
        self.get(id).cell
    }

    pub fn pages(&self) -> &[Page] {
        self.pages.list()
    }

    pub fn references(&self, id: Id) -> &[Option<Id>] {
        &self.get(id).references
    }

    pub fn numbers(&self, id: Id) -> &[u32] {
        &self.get(id).numbers
    }

    pub fn members(&self, region: Region) -> &[Id] {
        match region {
            Region::Control => &self.control,
            Region::Epoch { thread, level } => &self.threads[thread].epochs[level - 1],
        }
    }

    pub fn slot_crosses(&self, object: Id, value: Option<Id>) -> bool {
        match value {
            Some(to) => crosses(self.region(object), self.region(to)),
            None => false,
        }
    }

    fn members_mut(&mut self, region: Region) -> &mut Vec<Id> {
        match region {
            Region::Control => &mut self.control,
            Region::Epoch { thread, level } => &mut self.threads[thread].epochs[level - 1],
        }
    }

    fn get(&self, id: Id) -> &Object {
        self.objects[id].as_ref().expect("no object has this place")
    }

    fn get_mut(&mut self, id: Id) -> &mut Object {
        self.objects[id].as_mut().expect("no object has this place")
    }
}
