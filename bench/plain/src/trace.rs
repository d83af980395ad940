// The steps of a shortest path, taken from a table.

use crate::parse::Part;

// A filled table among n entries, with the parts that it is of.
pub struct Tracer<'a> {
    pub parts: &'a [Part],
    pub table: &'a [u32],
    pub n: usize,
}

impl Tracer<'_> {
    fn cell(&self, q: usize, u: usize, v: usize) -> u32 {
        self.table[(q * self.n + u) * self.n + v]
    }

    // Goes over the first middle with at least so many steps before it, and k in all.
    fn go_through(
        &self,
        least: u32,
        (left, right): (usize, usize),
        (u, v): (usize, usize),
        k: u32,
        steps: &mut Vec<(u8, usize)>,
    ) -> Option<()> {
        let middle = (0..self.n).find(|middle| {
            let before = self.cell(left, u, *middle);
            (least..=k).contains(&before) && k - before == self.cell(right, *middle, v)
        })?;
        self.walk(left, u, middle, steps)?;
        self.walk(right, middle, v, steps)
    }

    // Puts the steps of part q from u to v behind those that are there; none where the table is not that of the parts.
    pub fn walk(&self, q: usize, u: usize, v: usize, steps: &mut Vec<(u8, usize)>) -> Option<()> {
        let k = self.cell(q, u, v);
        match self.parts[q] {
            Part::Epsilon | Part::Star if u == v && k == 0 => Some(()),
            Part::Epsilon => None,
            Part::Letter(letter) => (k == 1).then(|| steps.push((letter, v))),
            Part::Either { left } if self.cell(left, u, v) == k => self.walk(left, u, v, steps),
            Part::Join { left } => self.go_through(0, (left, q - 1), (u, v), k, steps),
            _ if self.cell(q - 1, u, v) == k => self.walk(q - 1, u, v, steps),
            Part::Plus | Part::Star => self.go_through(1, (q - 1, q), (u, v), k, steps),
            Part::Either { .. } | Part::Same | Part::Differ => None,
        }
    }
}
