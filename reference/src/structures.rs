//! Full pages, full objects, lists, rings and lists held from several levels, and looking at what there is.

use crate::heap::{Heap, Id};
use crate::rules::Region;
use crate::writer::Writer;

impl Writer {
    /// Fills all fourteen slots of an object with an object further in.
    pub fn wide(&mut self, t: usize) {
        let scratch = self.scratch(t, 2);
        if scratch.len() < 2 || !self.make(t, scratch[0], 14, 0) {
            return;
        }
        if !self.start(t) || !self.make_known(t, scratch[1], 1, 1) {
            return;
        }
        for field in 0..14 {
            self.store(t, scratch[0], field, scratch[1]);
        }
    }

    /// New objects up to the end of a page, one less or one more.
    pub fn fill(&mut self, t: usize) {
        let past = self.random.between(0, 2);
        let v = self.scratch(t, 1)[0];
        for _ in 0..17 {
            let members = self.heap.members(self.heap.innermost(t)).len();
            if members % 16 == [15, 0, 1][past] && members > 0 {
                break;
            }
            if !self.make(t, v, 1, 0) {
                break;
            }
        }
    }

    pub fn list(&mut self, t: usize, length: usize) {
        let scratch = self.scratch(t, 2);
        if scratch.len() < 2 {
            return;
        }
        let (head, x) = (scratch[0], scratch[1]);
        self.clear(t, head);
        for _ in 0..length {
            if !self.make_known(t, x, 1, 1) || !self.store(t, x, 0, head) {
                break;
            }
            self.copy(t, head, x, t);
            // A list that passes through several regions.
            if self.random.percent(4) {
                self.start(t);
            }
        }
        self.clear(t, x);
    }

    /// Objects of the innermost region in lists that are mixed up, each held from another level or by nothing; then the region ends.
    pub fn spread(&mut self, t: usize) {
        while self.heap.depth(t) < 2 {
            let v = self.scratch(t, 1)[0];
            if !self.make_known(t, v, 3, 1) || !self.start(t) {
                return;
            }
        }
        let mut anchors = Vec::new();
        for level in 0..self.heap.depth(t) {
            let region = Region::at(t, level);
            anchors.extend(self.find(t, |heap, id| heap.region(id) == region && !heap.references(id).is_empty()));
        }
        let scratch: Vec<usize> = self.scratch(t, 4).into_iter().filter(|v| !anchors.contains(v)).collect();
        if anchors.is_empty() || scratch.len() < 2 {
            return self.tangle(t);
        }
        let (x, next) = (scratch[0], scratch[1]);
        for _ in 0..self.random.pick(&[3, 12, 20, 40, 70]) {
            if !self.make_known(t, x, 1, 1) {
                break;
            }
            if self.random.percent(80) {
                let anchor = self.random.pick(&anchors);
                self.load(t, next, anchor, 0);
                self.store(t, x, 0, next);
                self.store(t, anchor, 0, x);
            }
        }
        if self.random.percent(70) {
            self.clear(t, x);
            self.clear(t, next);
        }
        self.end(t);
        self.probe(t);
    }

    /// Objects that point to each other in a circle, held afterwards by a variable, by something else, or only by themselves.
    pub fn ring(&mut self, t: usize) {
        let scratch = self.scratch(t, 3);
        if scratch.len() < 3 {
            if let Some(v) = self.with_references(t) {
                let field = self.some_reference(t, v);
                self.store(t, v, field, v);
            }
            return;
        }
        let (first, last, x) = (scratch[0], scratch[1], scratch[2]);
        if !self.make_known(t, first, 2, 1) {
            return;
        }
        self.copy(t, last, first, t);
        for _ in 0..self.random.between(0, 6) {
            if !self.make_known(t, x, 2, 1) {
                break;
            }
            self.store(t, x, 0, last);
            self.copy(t, last, x, t);
        }
        self.store(t, first, 0, last);
        self.clear(t, x);
        self.clear(t, last);
        self.hold(t, first);
        if self.random.percent(60) {
            self.clear(t, first);
        }
    }

    /// Writes over slots that are crossing: with null, the holder itself, or something else.
    pub fn overwrite(&mut self, t: usize) {
        for _ in 0..3 {
            let crossing = |heap: &Heap, id: Id| heap.references(id).iter().any(|&value| heap.slot_crosses(id, value));
            let Some(v) = self.find(t, crossing) else { return };
            let id = self.heap.variable(t, v).unwrap();
            let fields: Vec<usize> =
                (0..self.heap.references(id).len()).filter(|&f| self.heap.slot_crosses(id, self.heap.references(id)[f])).collect();
            let field = self.random.pick(&fields);
            let value = self.some_variable();
            let value = self.random.pick(&[value, v]);
            self.store(t, v, field, value);
        }
        if self.random.percent(40) {
            self.end(t);
        }
    }

    /// Follows references from a variable and reads what is there.
    pub fn probe(&mut self, t: usize) {
        let Some(mut v) = self.find(t, |_, _| true) else { return };
        let scratch = self.scratch(t, 1)[0];
        for _ in 0..self.random.between(1, 4) {
            let Some(id) = self.heap.variable(t, v) else { return };
            if !self.heap.numbers(id).is_empty() {
                let field = self.some_number(t, v);
                self.read(t, v, field);
            }
            if self.heap.references(id).is_empty() {
                return;
            }
            let field = self.some_reference(t, v);
            self.load(t, scratch, v, field);
            v = scratch;
        }
        let other = self.some_variable();
        self.same(t, v, other);
    }

    /// At the end of a script: reads from many variables, so that a wrong reference shows.
    pub fn look_around(&mut self) {
        for t in 0..self.threads().min(6) {
            for v in 0..self.variables().min(8) {
                if self.heap.variable(t, v).is_some_and(|id| !self.heap.numbers(id).is_empty()) {
                    self.read(t, v, 0);
                }
                if v > 0 && self.random.percent(30) {
                    self.same(t, v, v - 1);
                }
            }
            for _ in 0..4 {
                self.probe(t);
            }
        }
    }
}
