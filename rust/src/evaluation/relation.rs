//! Relations on the numbers 0 to size - 1, as rows of bits.

#[derive(Clone, PartialEq, Eq, Debug)]
pub struct Relation {
    size: usize,
    cells: usize,
    bits: Vec<u64>,
}

impl Relation {
    pub fn none(size: usize) -> Relation {
        let cells = (size + 63) / 64;
        Relation { size, cells, bits: vec![0; size * cells] }
    }

    pub fn identity(size: usize) -> Relation {
        let mut relation = Relation::none(size);
        (0..size).for_each(|i| relation.add(i, i));
        relation
    }

    pub fn add(&mut self, from: usize, to: usize) {
        self.bits[from * self.cells + to / 64] |= 1 << (to % 64);
    }

    pub fn has(&self, from: usize, to: usize) -> bool {
        self.bits[from * self.cells + to / 64] >> (to % 64) & 1 == 1
    }

    fn add_row(&mut self, from: usize, row: &[u64]) {
        let mine = &mut self.bits[from * self.cells..][..self.cells];
        mine.iter_mut().zip(row).for_each(|(cell, other)| *cell |= other);
    }

    fn row(&self, from: usize) -> &[u64] {
        &self.bits[from * self.cells..][..self.cells]
    }

    pub fn union(mut self, other: &Relation) -> Relation {
        self.bits.iter_mut().zip(&other.bits).for_each(|(cell, more)| *cell |= more);
        self
    }

    /// The pairs (a, c) with (a, b) here and (b, c) there.
    pub fn then(&self, other: &Relation) -> Relation {
        let mut both = Relation::none(self.size);
        for from in 0..self.size {
            for middle in (0..self.size).filter(|middle| self.has(from, *middle)) {
                both.add_row(from, other.row(middle));
            }
        }
        both
    }

    /// The reflexive transitive closure (Warshall).
    pub fn star(self) -> Relation {
        let mut closed = Relation::identity(self.size).union(&self);
        for middle in 0..self.size {
            let row = closed.row(middle).to_vec();
            for from in 0..self.size {
                if closed.has(from, middle) {
                    closed.add_row(from, &row);
                }
            }
        }
        closed
    }
}
