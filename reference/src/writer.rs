//! A script being written, and the heap that has obeyed it so far: the eleven commands by name, and the choice of operands.

use crate::heap::{Heap, Id};
use crate::random::Random;

pub struct Writer {
    pub random: Random,
    pub heap: Heap,
    pub steps: Vec<[u32; 5]>,
    /// Numbers written into objects, so that a script can tell them apart.
    pub serial: u32,
    /// So many commands are enough.
    pub most: usize,
}

impl Writer {
    /// Adds a command; says whether it was done.
    pub fn say(&mut self, words: [u32; 5]) -> bool {
        self.steps.push(words);
        self.heap.obey(words).is_ok()
    }

    pub fn full(&self) -> bool {
        self.steps.len() >= self.most
    }

    /// Drops what is more than enough, in the middle of a pattern, so that any command may be the last one that changes the words.
    pub fn cut(&mut self) {
        self.steps.truncate(self.most);
        self.heap = Heap::new(self.heap.limits);
        for &words in &self.steps {
            let _ = self.heap.obey(words);
        }
    }

    // The eleven commands by name.

    pub fn start(&mut self, t: usize) -> bool {
        self.say([1, t as u32, 0, 0, 0])
    }
    pub fn end(&mut self, t: usize) -> bool {
        self.say([2, t as u32, 0, 0, 0])
    }
    pub fn make(&mut self, t: usize, a: usize, references: usize, numbers: usize) -> bool {
        self.say([3, t as u32, a as u32, references as u32, numbers as u32])
    }
    pub fn copy(&mut self, t: usize, a: usize, b: usize, other: usize) -> bool {
        self.say([4, t as u32, a as u32, b as u32, other as u32])
    }
    pub fn clear(&mut self, t: usize, a: usize) -> bool {
        self.say([5, t as u32, a as u32, 0, 0])
    }
    pub fn load(&mut self, t: usize, a: usize, b: usize, field: usize) -> bool {
        self.say([6, t as u32, a as u32, b as u32, field as u32])
    }
    pub fn store(&mut self, t: usize, a: usize, field: usize, c: usize) -> bool {
        self.say([7, t as u32, a as u32, field as u32, c as u32])
    }
    pub fn read(&mut self, t: usize, a: usize, field: usize) -> bool {
        self.say([8, t as u32, a as u32, field as u32, 0])
    }
    pub fn write(&mut self, t: usize, a: usize, field: usize, number: u32) -> bool {
        self.say([9, t as u32, a as u32, field as u32, number])
    }
    pub fn same(&mut self, t: usize, a: usize, b: usize) -> bool {
        self.say([10, t as u32, a as u32, b as u32, 0])
    }
    pub fn collect(&mut self, t: usize) -> bool {
        self.say([11, t as u32, 0, 0, 0])
    }

    /// A new object with a number of its own, if it has number fields.
    pub fn make_known(&mut self, t: usize, a: usize, references: usize, numbers: usize) -> bool {
        let done = self.make(t, a, references, numbers);
        if done && numbers > 0 {
            self.serial += 1;
            self.write(t, a, 0, self.serial);
        }
        done
    }

    // Choosing.

    pub fn threads(&self) -> usize {
        self.heap.limits.threads as usize
    }

    pub fn variables(&self) -> usize {
        self.heap.limits.variables as usize
    }

    pub fn some_thread(&mut self) -> usize {
        let t = self.threads();
        self.random.below(t)
    }

    /// Another thread, if there is one.
    pub fn other_thread(&mut self, t: usize) -> usize {
        let count = self.threads();
        if count == 1 {
            t
        } else {
            (t + self.random.between(1, count - 1)) % count
        }
    }

    pub fn some_variable(&mut self) -> usize {
        let v = self.variables();
        self.random.below(v)
    }

    /// A variable of the thread whose object passes the test.
    pub fn find(&mut self, t: usize, test: impl Fn(&Heap, Id) -> bool) -> Option<usize> {
        let heap = &self.heap;
        let found: Vec<usize> = (0..self.variables()).filter(|&v| heap.variable(t, v).is_some_and(|id| test(heap, id))).collect();
        if found.is_empty() {
            None
        } else {
            Some(self.random.pick(&found))
        }
    }

    pub fn with_references(&mut self, t: usize) -> Option<usize> {
        self.find(t, |heap, id| !heap.references(id).is_empty())
    }

    pub fn with_numbers(&mut self, t: usize) -> Option<usize> {
        self.find(t, |heap, id| !heap.numbers(id).is_empty())
    }

    pub fn some_reference(&mut self, t: usize, v: usize) -> usize {
        let count = self.heap.references(self.heap.variable(t, v).unwrap()).len();
        self.random.below(count)
    }

    pub fn some_number(&mut self, t: usize, v: usize) -> usize {
        let count = self.heap.numbers(self.heap.variable(t, v).unwrap()).len();
        self.random.below(count)
    }

    /// Up to n different variables that may be overwritten: null ones first, then those with objects of the innermost region.
    pub fn scratch(&mut self, t: usize, n: usize) -> Vec<usize> {
        let innermost = self.heap.innermost(t);
        let mut ranked: Vec<(usize, u64, usize)> = Vec::new();
        for v in 0..self.variables() {
            let rank = match self.heap.variable(t, v) {
                None => 0,
                Some(id) if self.heap.region(id) == innermost => 1,
                Some(_) => 2,
            };
            ranked.push((rank, self.random.next(), v));
        }
        ranked.sort();
        ranked.into_iter().take(n).map(|entry| entry.2).collect()
    }

    /// Counts of fields: mostly few, sometimes all fourteen.
    pub fn some_shape(&mut self) -> (usize, usize) {
        if self.random.percent(85) {
            return (self.random.between(0, 3), self.random.between(0, 2));
        }
        let references = self.random.between(0, 14);
        let numbers = if self.random.percent(50) { 14 - references } else { self.random.between(0, 14 - references) };
        (references, numbers)
    }
}
