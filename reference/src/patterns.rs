//! What scripts are put together from: single commands, and short runs of commands that lead into a corner of the region rules.

use crate::rules::Region;
use crate::writer::Writer;

#[derive(Clone, Copy)]
pub enum Pattern {
    Any,
    Refuse,
    Open,
    Close,
    Descend,
    Tangle,
    Fan,
    FullFan,
    Press,
    Fill,
    List,
    LongList,
    Ring,
    Spread,
    Again,
    Share,
    Wide,
    Overwrite,
    Clear,
    Probe,
    Register,
    Collect,
    Sheets,
    Ladder,
}

impl Writer {
    pub fn play(&mut self, pattern: Pattern) {
        let t = self.some_thread();
        match pattern {
            Pattern::Any => self.any(t),
            Pattern::Refuse => self.refuse(t),
            Pattern::Open => {
                for _ in 0..self.random.between(1, 3) {
                    self.start(t);
                }
            }
            Pattern::Close => {
                self.end(t);
            }
            Pattern::Descend => self.descend(t),
            Pattern::Tangle => self.tangle(t),
            Pattern::Fan => self.fan(t, false),
            Pattern::FullFan => self.fan(t, true),
            Pattern::Press => self.press(t),
            Pattern::Fill => self.fill(t),
            Pattern::List => {
                let length = self.random.weighted(&[(3, 4), (10, 4), (20, 3), (50, 1)]);
                self.list(t, length)
            }
            Pattern::LongList => {
                let length = self.random.pick(&[20, 40, 70, 250]);
                self.start(t);
                self.list(t, length);
                self.end(t);
                self.probe(t);
            }
            Pattern::Ring => self.ring(t),
            Pattern::Spread => self.spread(t),
            Pattern::Again => self.again(t),
            Pattern::Share => self.share(t),
            Pattern::Wide => self.wide(t),
            Pattern::Overwrite => self.overwrite(t),
            Pattern::Clear => {
                for _ in 0..self.random.between(1, 5) {
                    let v = self.some_variable();
                    self.clear(t, v);
                }
            }
            Pattern::Probe => self.probe(t),
            Pattern::Register => self.register(t),
            Pattern::Collect => self.gather(t),
            Pattern::Sheets => self.sheets(t),
            Pattern::Ladder => self.ladder(t),
        }
    }

    /// Opens epochs and leaves an object with references on the way at most levels, in a variable each.
    fn descend(&mut self, t: usize) {
        let wanted = self.random.between(1, self.heap.limits.depth as usize);
        while self.heap.depth(t) < wanted {
            if self.random.percent(85) {
                let v = self.scratch(t, 1)[0];
                let references = self.random.between(1, 4);
                self.make_known(t, v, references, 1);
            }
            if !self.start(t) {
                return;
            }
        }
    }

    /// Objects in the innermost region, linked at random and held in every way or not at all; then the region ends.
    pub fn tangle(&mut self, t: usize) {
        if self.heap.depth(t) == 0 {
            self.descend(t);
        }
        let most = self.random.between(1, 5);
        let made = self.scratch(t, most);
        for &v in &made {
            let references = self.random.between(1, 3);
            if !self.make_known(t, v, references, 1) {
                return;
            }
        }
        for _ in 0..self.random.between(0, 2 * made.len()) {
            let from = self.random.pick(&made);
            let to = self.random.pick(&made);
            let field = self.some_reference(t, from);
            self.store(t, from, field, to);
        }
        for &v in &made {
            self.hold(t, v);
            if self.random.percent(80) {
                self.clear(t, v);
            }
        }
        if self.random.percent(85) {
            self.end(t);
            self.probe(t);
        }
    }

    /// Lets something outside the region hold the variable's object: a slot further out, another thread's variable or slot, or nothing.
    pub fn hold(&mut self, t: usize, v: usize) {
        let level = self.random.below(self.heap.depth(t).max(1));
        match self.random.below(10) {
            0..=4 => {
                let region = Region::at(t, level);
                let there = self.find(t, |heap, id| heap.region(id) == region && !heap.references(id).is_empty());
                if let Some(outer) = there {
                    let field = self.some_reference(t, outer);
                    self.store(t, outer, field, v);
                }
            }
            5 | 6 => self.share_variable(t, v),
            _ => {}
        }
    }

    /// Gives another thread the object, in a variable, or in a slot of an object it has and then mostly no longer in the variable.
    fn share_variable(&mut self, t: usize, v: usize) {
        let other = self.other_thread(t);
        if other == t {
            return;
        }
        let Some(&into) = self.scratch(other, 1).first() else { return };
        if self.random.percent(30) {
            self.start(other);
        }
        if self.random.percent(40) && self.variables() > 1 && self.with_references(other).is_none() {
            let holder = (into + 1) % self.variables();
            self.make_known(other, holder, 2, 1);
        }
        self.copy(other, into, v, t);
        if self.random.percent(60) {
            if let Some(holder) = self.with_references(other) {
                let field = self.some_reference(other, holder);
                self.store(other, holder, field, into);
                if self.random.percent(80) {
                    self.clear(other, into);
                }
            }
        }
    }

    fn share(&mut self, t: usize) {
        if let Some(v) = self.find(t, |_, _| true) {
            self.share_variable(t, v);
        }
    }

    /// Edge 6 with several objects: y is held from an outer level, a list of others that point to y is held by a variable, so that the
    /// end makes a crossing slot of each. With `full` the pages are used up before, so that both 13 and 14 may be due.
    fn fan(&mut self, t: usize, full: bool) {
        let deepest = self.heap.limits.depth as usize;
        let scratch = self.scratch(t, 4);
        if deepest < 3 || scratch.len() < 3 {
            return self.tangle(t);
        }
        while self.heap.depth(t) >= deepest - 1 {
            if !self.end(t) {
                return;
            }
        }
        while self.heap.depth(t) == 0 {
            self.start(t);
        }
        let (anchor, y, head) = (scratch[0], scratch[1], scratch[2]);
        let x = scratch.get(3).copied().unwrap_or(anchor);
        if !self.make_known(t, anchor, 2, 1) {
            return;
        }
        let first = self.heap.depth(t);
        let last = self.random.between(first + 2, deepest);
        for _ in first..last {
            self.start(t);
        }
        if !self.make_known(t, y, 1, 1) || !self.store(t, anchor, 0, y) {
            self.end(t);
            return;
        }
        if !self.make_known(t, head, 2, 1) {
            return;
        }
        self.store(t, head, 0, y);
        for _ in 0..self.random.between(0, 4) {
            if !self.make_known(t, x, 2, 1) {
                break;
            }
            self.store(t, x, 0, y);
            self.store(t, x, 1, head);
            self.copy(t, head, x, t);
        }
        self.clear(t, y);
        for _ in 0..if full { 60 } else { 0 } {
            if !self.make(t, x, 0, 0) {
                break;
            }
        }
        self.clear(t, x);
        let mut done = self.end(t);
        if !done && self.random.percent(60) {
            // After 14: less to keep.
            self.load(t, head, head, 1);
            done = self.end(t);
        }
        if !done && self.random.percent(70) {
            self.clear(t, head);
            self.end(t);
        }
        self.probe(t);
    }

    /// Uses up the pages with a list in the innermost region, then ends it.
    fn press(&mut self, t: usize) {
        if self.heap.depth(t) == 0 {
            self.fill(t);
            self.start(t);
        }
        let scratch = self.scratch(t, 2);
        if scratch.len() < 2 {
            return self.fill(t);
        }
        let (head, x) = (scratch[0], scratch[1]);
        self.clear(t, head);
        for _ in 0..40 {
            if !self.make(t, x, 1, 1) {
                break;
            }
            self.store(t, x, 0, head);
            self.copy(t, head, x, t);
            if self.full() {
                break;
            }
        }
        self.clear(t, x);
        if !self.end(t) && self.random.percent(70) {
            // After 13: half of the list, or nothing of it.
            if self.random.percent(50) {
                for _ in 0..12 {
                    self.load(t, head, head, 0);
                }
            } else {
                self.clear(t, head);
            }
            self.end(t);
        }
        self.probe(t);
    }

    /// Crossing stores until the entries are used up, then the last slot once more with another target.
    fn again(&mut self, t: usize) {
        let scratch = self.scratch(t, 3);
        if scratch.len() < 3 {
            return;
        }
        let (outer, one, two) = (scratch[0], scratch[1], scratch[2]);
        if !self.make_known(t, outer, 6, 1) || !self.start(t) {
            return;
        }
        if !self.make_known(t, one, 1, 1) || !self.make_known(t, two, 1, 1) {
            return;
        }
        self.store(t, one, 0, two);
        let mut field = 0;
        while field < 5 && self.store(t, outer, field, one) {
            field += 1;
        }
        if field > 0 {
            self.store(t, outer, field - 1, two);
            if self.random.percent(50) {
                self.clear(t, one);
                self.store(t, outer, field - 1, one);
                self.store(t, outer, field, two);
            }
        }
        if self.random.percent(50) {
            self.end(t);
        }
    }
}
