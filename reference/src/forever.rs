//! Document 01's heap that never frees, kept apart from the other heap so that one can be held against the other.

pub struct Forever {
    threads: u32,
    variables_each: u32,
    most: u32,
    pub depths: Vec<u32>,
    pub variables: Vec<Vec<Option<usize>>>,
    pub objects: Vec<(Vec<Option<usize>>, Vec<u32>)>,
}

impl Forever {
    pub fn new(threads: u32, variables_each: u32, most: u32) -> Forever {
        Forever {
            threads,
            variables_each,
            most,
            depths: vec![0; threads as usize],
            variables: vec![vec![None; variables_each as usize]; threads as usize],
            objects: Vec::new(),
        }
    }

    /// Number and value.
    pub fn obey(&mut self, [code, t, a, b, c]: [u32; 5]) -> (u32, u32) {
        if !(1..=11).contains(&code) {
            return (6, 0);
        }
        if t >= self.threads {
            return (7, 0);
        }
        // Which of a, b and c are variables, and which are not used.
        let (variables, unused): (&[u32], &[u32]) = match code {
            1 | 2 | 11 => (&[], &[a, b, c]),
            3 | 9 => (&[a], &[]),
            4 | 6 => (&[a, b], &[]),
            5 => (&[a], &[b, c]),
            7 => (&[a, c], &[]),
            8 => (&[a], &[c]),
            _ => (&[a, b], &[c]),
        };
        let too_many_fields = code == 3 && b.checked_add(c).is_none_or(|sum| sum > 14);
        let no_such_thread = code == 4 && c >= self.threads;
        if variables.iter().any(|&x| x >= self.variables_each) || unused.iter().any(|&x| x != 0) || too_many_fields || no_such_thread {
            return (8, 0);
        }
        let t = t as usize;
        // The object used and which of its fields, with true for a reference.
        let used = match code {
            6 => Some((b, c, true)),
            7 => Some((a, b, true)),
            8 | 9 => Some((a, b, false)),
            _ => None,
        };
        let (mut object, mut field) = (0, 0);
        if let Some((variable, wanted, reference)) = used {
            match self.variables[t][variable as usize] {
                None => return (9, 0),
                Some(place) => object = place,
            }
            field = wanted as usize;
            let count = if reference { self.objects[object].0.len() } else { self.objects[object].1.len() };
            if field >= count {
                return (10, 0);
            }
        }
        let mut value = 0;
        match code {
            1 if self.depths[t] >= self.most => return (11, 0),
            2 if self.depths[t] == 0 => return (12, 0),
            1 => self.depths[t] += 1,
            2 => self.depths[t] -= 1,
            3 => {
                self.objects.push((vec![None; b as usize], vec![0; c as usize]));
                self.variables[t][a as usize] = Some(self.objects.len() - 1);
            }
            4 => self.variables[t][a as usize] = self.variables[c as usize][b as usize],
            5 => self.variables[t][a as usize] = None,
            6 => {
                let found = self.objects[object].0[field];
                self.variables[t][a as usize] = found;
                value = found.is_some() as u32;
            }
            7 => self.objects[object].0[field] = self.variables[t][c as usize],
            8 => value = self.objects[object].1[field],
            9 => self.objects[object].1[field] = c,
            10 => value = (self.variables[t][a as usize] == self.variables[t][b as usize]) as u32,
            // 02, W5: a collection changes nothing here.
            _ => {}
        }
        (0, value)
    }
}
