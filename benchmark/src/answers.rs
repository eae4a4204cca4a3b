//! What an engine answered: a number that hangs on every value and every row, in their order.

#[derive(Clone, Copy, Debug, Default, PartialEq, Eq)]
pub struct Answers {
    pub commands: u64,
    pub rows: u64,
    sum: u64,
}

impl Answers {
    /// Takes the value and the rows of one command, as a host does that hands them on.
    #[inline]
    pub fn take(&mut self, value: i64, rows: &[[i64; 2]]) {
        self.commands += 1;
        self.rows += rows.len() as u64;
        self.add(value);
        for &[effect, value] in rows {
            self.add(effect);
            self.add(value);
        }
    }

    #[inline]
    fn add(&mut self, word: i64) {
        self.sum = self.sum.rotate_left(5).wrapping_add(word as u64);
    }
}
