//! Registers in the control space, held in every way or not at all, and collections of it (02, W5).

use crate::heap::{Heap, Id};
use crate::rules::Region;
use crate::writer::Writer;

impl Writer {
    /// Some thread collects; mostly what is left is looked at, and new objects follow.
    pub fn gather(&mut self, t: usize) {
        let caller = self.some_thread();
        self.collect(caller);
        self.probe(t);
        if self.random.percent(40) {
            let v = self.scratch(t, 1)[0];
            for _ in 0..self.random.pick(&[1, 2, 17]) {
                self.make_known(t, v, 1, 1);
            }
        }
    }

    /// A list in the control space, linked from the newest object back or from the oldest on. Some objects, or every second, are left out of
    /// it, and some have ties of their own; then a part is dropped, and the space is collected.
    pub fn register(&mut self, t: usize) {
        let Some(t) = self.outside(t) else { return self.gather(t) };
        let scratch = self.scratch(t, 4);
        if scratch.len() < 4 {
            self.fill(t);
            return self.gather(t);
        }
        let (head, last, x, y) = (scratch[0], scratch[1], scratch[2], scratch[3]);
        let forwards = self.random.percent(50);
        let listed = self.random.pick(&[100, 100, 80, 30]);
        let every_second = self.random.percent(30);
        self.clear(t, head);
        for i in 0..self.random.pick(&[2, 6, 12, 20, 36]) {
            if self.full() || !self.make_known(t, x, 3, 1) {
                break;
            }
            let left_out = if every_second { i % 2 == 1 } else { !self.random.percent(listed) };
            if !left_out {
                self.link(t, head, last, x, forwards);
            }
            self.tie(t, x, y);
        }
        self.clear(t, x);
        self.clear(t, last);
        if self.random.percent(40) {
            self.hold_from_inside(t, head, y);
        }
        self.drop_some(t, head, x);
        self.gather(t);
    }

    /// A thread that has no epoch open, so that it makes objects of the control space.
    fn outside(&mut self, t: usize) -> Option<usize> {
        let idle: Vec<usize> = (0..self.threads()).filter(|&other| self.heap.depth(other) == 0).collect();
        if !idle.is_empty() {
            return Some(self.random.pick(&idle));
        }
        while self.heap.depth(t) > 0 {
            if !self.end(t) {
                return None;
            }
        }
        Some(t)
    }

    fn link(&mut self, t: usize, head: usize, last: usize, x: usize, forwards: bool) {
        if !forwards {
            self.store(t, x, 0, head);
            self.copy(t, head, x, t);
        } else if self.heap.variable(t, head).is_none() {
            self.copy(t, head, x, t);
            self.copy(t, last, x, t);
        } else {
            self.store(t, last, 0, x);
            self.copy(t, last, x, t);
        }
    }

    /// Ties of one object: a slot that crosses into another thread's region, a circle, another thread's variable or slot that holds it; or
    /// another region takes a page.
    fn tie(&mut self, t: usize, x: usize, y: usize) {
        let other = self.other_thread(t);
        match self.random.below(20) {
            0 => {
                self.store(t, x, 2, x);
            }
            1..=4 if other != t => {
                let inside = |heap: &Heap, id: Id| heap.region(id) != Region::Control;
                if let Some(v) = self.find(other, inside) {
                    self.copy(t, y, v, other);
                    self.store(t, x, 1, y);
                    self.clear(t, y);
                } else {
                    self.beside(other);
                }
            }
            5 | 6 if other != t => {
                let v = self.scratch(other, 1)[0];
                self.copy(other, v, x, t);
            }
            7 | 8 if other != t && self.heap.depth(other) > 0 => self.hold_unreached(t, x, other),
            9 if other != t => self.beside(other),
            _ => {}
        }
    }

    /// An object in the thread's innermost region holds the object of the other thread's variable; mostly nothing leads to the holder.
    fn hold_unreached(&mut self, t: usize, x: usize, holder: usize) {
        let scratch = self.scratch(holder, 2);
        if scratch.len() < 2 || !self.make_known(holder, scratch[0], 2, 1) {
            return;
        }
        self.copy(holder, scratch[1], x, t);
        self.store(holder, scratch[0], 1, scratch[1]);
        self.clear(holder, scratch[1]);
        if self.random.percent(70) {
            self.clear(holder, scratch[0]);
        }
    }

    /// The thread's innermost region takes a page, so that it lies between those of the control space; a slot on it may cross.
    fn beside(&mut self, t: usize) {
        let v = self.scratch(t, 1)[0];
        let objects = if self.start(t) { self.random.between(1, 3) } else { 16 };
        for _ in 0..objects {
            self.make_known(t, v, 2, 1);
        }
        let innermost = self.heap.innermost(t);
        if self.heap.variable(t, v).is_some_and(|id| self.heap.region(id) == innermost && self.heap.references(id).len() == 2) {
            if let Some(outer) = self.find(t, |heap, id| heap.region(id) != innermost && heap.region(id) != Region::Control) {
                self.store(t, v, 0, outer);
            }
        }
    }

    /// The thread opens an epoch, in which an object holds the head of the list; the list may hold that object in turn.
    fn hold_from_inside(&mut self, t: usize, head: usize, holder: usize) {
        if self.heap.variable(t, head).is_none() || !self.start(t) || !self.make_known(t, holder, 2, 1) {
            return;
        }
        self.store(t, holder, 0, head);
        if self.random.percent(60) {
            self.store(t, head, 1, holder);
        }
        if self.random.percent(70) {
            self.clear(t, holder);
        }
    }

    /// The list goes, or its first objects, or those after some place; or all stays.
    fn drop_some(&mut self, t: usize, head: usize, x: usize) {
        let steps = self.random.between(1, 8);
        match self.random.below(4) {
            0 => {
                self.clear(t, head);
            }
            1 => {
                for _ in 0..steps {
                    if self.heap.variable(t, head).is_some() {
                        self.load(t, head, head, 0);
                    }
                }
            }
            2 => {
                self.copy(t, x, head, t);
                for _ in 0..steps {
                    if self.heap.variable(t, x).is_some_and(|id| self.heap.references(id)[0].is_some()) {
                        self.load(t, x, x, 0);
                    }
                }
                let nothing = self.scratch(t, 1)[0];
                if nothing != x && self.heap.variable(t, nothing).is_none() && self.heap.variable(t, x).is_some() {
                    self.store(t, x, 0, nothing);
                }
                self.clear(t, x);
            }
            _ => {}
        }
    }
}
