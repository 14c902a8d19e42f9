//! Sheets open on several threads, and slots that lead into them and are written over (02, W6).

use crate::rules::Region;
use crate::writer::Writer;

impl Writer {
    /// A register whose slots are written over and over with objects of open regions, of this thread and of others; now and then one of
    /// these ends, or the control space is collected.
    pub fn sheets(&mut self, t: usize) {
        let scratch = self.scratch(t, 2);
        let found = self.find(t, |heap, id| heap.references(id).len() > 3);
        let (x, register) = (scratch[0], found.unwrap_or(scratch[scratch.len() - 1]));
        let slots = self.random.between(4, 8);
        if x == register || (found.is_none() && !self.make_known(t, register, slots, 1)) {
            return self.tangle(t);
        }
        for _ in 0..self.random.between(1, 4) {
            let other = self.some_thread();
            self.sheet(other);
        }
        for _ in 0..self.random.between(4, 16) {
            let other = self.some_thread();
            match self.random.below(20) {
                0 => self.sheet(other),
                1 => {
                    self.end(other);
                }
                2 if self.random.percent(50) => {
                    self.collect(other);
                }
                _ => self.point(t, register, x, other),
            }
        }
    }

    /// The thread opens an epoch, if it can, and makes an object in it.
    fn sheet(&mut self, t: usize) {
        self.start(t);
        let v = self.scratch(t, 1)[0];
        self.make_known(t, v, 2, 1);
    }

    /// A slot of the register becomes null, or an object of an open region that the other thread has.
    fn point(&mut self, t: usize, register: usize, x: usize, other: usize) {
        match self.find(other, |heap, id| heap.region(id) != Region::Control) {
            Some(v) if self.random.percent(90) => self.copy(t, x, v, other),
            _ => self.clear(t, x),
        };
        if self.heap.variable(t, register).is_some_and(|id| !self.heap.references(id).is_empty()) {
            let field = self.some_reference(t, register);
            self.store(t, register, field, x);
        }
    }

    /// Objects of the innermost region, each held from several levels of the thread. When the region ends they go to the outermost of
    /// these, and the slots further in cross as before, but into another region.
    pub fn ladder(&mut self, t: usize) {
        if self.heap.limits.depth < 3 {
            return self.tangle(t);
        }
        while self.heap.depth(t) < 3 {
            let v = self.scratch(t, 1)[0];
            if !self.make_known(t, v, 4, 1) || !self.start(t) {
                return;
            }
        }
        let mut rungs = Vec::new();
        for level in usize::from(self.random.percent(80))..self.heap.depth(t) {
            let region = Region::at(t, level);
            rungs.extend(self.find(t, |heap, id| heap.region(id) == region && !heap.references(id).is_empty()));
        }
        let x = self.scratch(t, 1)[0];
        if rungs.is_empty() || rungs.contains(&x) {
            return self.tangle(t);
        }
        for _ in 0..self.random.between(1, 5) {
            if !self.make_known(t, x, 1, 1) {
                break;
            }
            for _ in 0..self.random.between(1, 4) {
                let rung = self.random.pick(&rungs);
                let field = self.some_reference(t, rung);
                self.store(t, rung, field, x);
            }
        }
        if self.random.percent(80) {
            self.clear(t, x);
        }
        if self.random.percent(80) {
            self.end(t);
        }
    }
}
