//! Single commands: likely to be done, or refused by a question from 6 to 12.

use crate::writer::Writer;

impl Writer {
    /// One command that is likely to be done.
    pub fn any(&mut self, t: usize) {
        let code = self.random.weighted(&[(1, 5), (2, 5), (3, 24), (4, 12), (5, 5), (6, 12), (7, 22), (8, 6), (9, 5), (10, 4), (11, 3)]);
        let a = self.some_variable();
        match code {
            1 => {
                self.start(t);
            }
            2 if self.heap.depth(t) > 0 || self.random.percent(10) => {
                self.end(t);
            }
            4 => {
                let other = self.some_thread();
                let b = self.find(other, |_, _| true).unwrap_or(a);
                self.copy(t, a, b, other);
            }
            5 => {
                self.clear(t, a);
            }
            6 | 7 => match self.with_references(t) {
                Some(b) if code == 6 => {
                    let field = self.some_reference(t, b);
                    self.load(t, a, b, field);
                }
                Some(b) => {
                    let field = self.some_reference(t, b);
                    let value = if self.random.percent(85) { self.find(t, |_, _| true).unwrap_or(a) } else { a };
                    self.store(t, b, field, value);
                }
                None => {
                    self.make_known(t, a, 2, 1);
                }
            },
            8 | 9 => match self.with_numbers(t) {
                Some(b) if code == 8 => {
                    let field = self.some_number(t, b);
                    self.read(t, b, field);
                }
                Some(b) => {
                    let field = self.some_number(t, b);
                    let drawn = self.random.next() as u32;
                    let number = self.random.pick(&[0, 1, 4_294_967_295, drawn, drawn]);
                    self.write(t, b, field, number);
                }
                None => {
                    self.make_known(t, a, 1, 1);
                }
            },
            10 => {
                let b = self.some_variable();
                self.same(t, a, b);
            }
            11 => {
                self.collect(t);
            }
            _ => {
                let (references, numbers) = self.some_shape();
                self.make_known(t, a, references, numbers);
            }
        }
    }

    /// One command that questions 6 to 12 refuse; often a later question would refuse it too.
    pub fn refuse(&mut self, t: usize) {
        let huge = self.random.pick(&[4_294_967_295u32, 2_147_483_648, 65_536, 256, 33]);
        let (threads, variables) = (self.heap.limits.threads, self.heap.limits.variables);
        let late = if self.random.percent(50) { huge } else { 0 };
        let thread = t as u32;
        let a = self.some_variable();
        let bad_variable = self.random.pick(&[variables, variables + 1, huge.max(variables)]);
        match self.random.between(6, 12) {
            6 => {
                let code = self.random.pick(&[0, 12, 13, 14, 15, 16, 255, 256, 257, 267, 4_294_967_295]);
                let thread = self.random.pick(&[thread, threads, huge]);
                self.say([code, thread, late, late, 0]);
            }
            7 => {
                let code = self.random.between(1, 11) as u32;
                let thread = self.random.pick(&[threads, threads + 1, huge.max(threads)]);
                self.say([code, thread, late, 0, late]);
            }
            8 => self.refuse_operands(thread, a as u32, bad_variable, huge),
            9 => self.refuse_null(t, a as u32, late),
            10 => self.refuse_field(t, a, huge),
            11 => {
                for _ in 0..9 {
                    if !self.start(t) {
                        break;
                    }
                }
            }
            _ => {
                for _ in 0..9 {
                    if !self.end(t) {
                        break;
                    }
                }
            }
        }
    }

    /// The object used is null, whatever the field.
    fn refuse_null(&mut self, t: usize, a: u32, late: u32) {
        let empty = self.scratch(t, 1)[0];
        self.clear(t, empty);
        let (t, empty) = (t as u32, empty as u32);
        let words = self.random.pick(&[[6, t, a, empty, late], [7, t, empty, late, a], [8, t, empty, late, 0], [9, t, empty, late, late]]);
        self.say(words);
    }

    /// The first field past the count, one that the other kind may have, or far out.
    fn refuse_field(&mut self, t: usize, a: usize, huge: u32) {
        if self.find(t, |_, _| true).is_none() {
            let (references, numbers) = self.some_shape();
            self.make(t, a, references, numbers);
        }
        let Some(held) = self.find(t, |_, _| true) else { return };
        let id = self.heap.variable(t, held).unwrap();
        let (references, numbers) = (self.heap.references(id).len() as u32, self.heap.numbers(id).len() as u32);
        let (t, a, held) = (t as u32, a as u32, held as u32);
        let reference = self.random.pick(&[references, references, references + 1, references + numbers, huge]);
        let number = self.random.pick(&[numbers, numbers, numbers + 1, references + numbers, huge]);
        let words = self.random.pick(&[
            [6, t, a, held, reference],
            [7, t, held, reference, a],
            [8, t, held, number, 0],
            [9, t, held, number, huge],
        ]);
        self.say(words);
    }

    fn refuse_operands(&mut self, t: u32, a: u32, bad: u32, huge: u32) {
        let threads = self.heap.limits.threads;
        let choices = [
            [1, t, 1, 0, 0],
            [1, t, 0, huge, 0],
            [1, t, 0, 0, 1],
            [2, t, huge, 0, 0],
            [2, t, 0, 1, 0],
            [2, t, 0, 0, 1],
            [3, t, bad, 1, 1],
            [3, t, a, 15, 0],
            [3, t, a, 0, 15],
            [3, t, a, 7, 8],
            [3, t, a, 4_294_967_295, 1],
            [3, t, a, 1, 4_294_967_295],
            [3, t, a, 2_147_483_648, 2_147_483_648],
            [3, t, a, 4_294_967_290, 14],
            [4, t, bad, a, t],
            [4, t, a, bad, t],
            [4, t, a, a, threads],
            [4, t, a, a, huge.max(threads)],
            [5, t, bad, 0, 0],
            [5, t, a, 1, 0],
            [5, t, a, 0, 1],
            [6, t, bad, a, 0],
            [6, t, a, bad, 0],
            [7, t, bad, 0, a],
            [7, t, a, 0, bad],
            [8, t, bad, 0, 0],
            [8, t, a, 0, 1],
            [9, t, bad, 0, 0],
            [10, t, bad, a, 0],
            [10, t, a, bad, 0],
            [10, t, a, a, huge],
            [11, t, 1, 0, 0],
            [11, t, 0, huge, 0],
            [11, t, 0, 0, 1],
        ];
        let words = self.random.pick(&choices);
        self.say(words);
    }
}
