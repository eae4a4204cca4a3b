//! Formulas, as words. Reads go to nodes that exist; constants stand in while there are none.

use super::Writer;
use super::profile::{Profile, Shape};
use crate::driver::books::Kind;
use crate::driver::formula::{MOST_CELLS, MOST_NESTING, named};

const SUM: i64 = 3;
const CHOOSE: i64 = 8;

impl Writer {
    pub fn formula(&mut self) -> Vec<i64> {
        match self.random.weighted(&self.profile.shapes()) {
            Shape::Lone => self.leaf(),
            Shape::Pair => self.joined(2),
            Shape::Repeated => self.repeated(),
            Shape::Switch => self.switch(),
            Shape::Tree => self.tree(4),
            Shape::Large => self.large_or_largest(),
            Shape::Spine => {
                let nesting =
                    self.random.one_of(&[3, MOST_NESTING - 1, MOST_NESTING, MOST_NESTING]);
                self.joined(nesting)
            }
        }
    }

    /// Mostly a read.
    pub fn leaf(&mut self) -> Vec<i64> {
        match self.source() {
            Some(number) if self.random.chance(85) => vec![2, number],
            _ => vec![1, self.value()],
        }
    }

    /// A node to read: often a late computed, or one of the few signals that many share.
    pub fn source(&mut self) -> Option<i64> {
        let computeds = self.numbers(|entry| entry.kind == Kind::Computed);
        let signals = self.numbers(|entry| entry.kind == Kind::Signal);
        if self.profile == Profile::Deep && self.random.chance(60) {
            return self.highest().or_else(|| self.random.any_of(&signals));
        }
        if self.random.chance(55) && !computeds.is_empty() {
            let late = computeds.len().saturating_sub(6);
            return self.random.any_of(&computeds[late..]);
        }
        self.random.any_of(&signals).or_else(|| self.random.any_of(&computeds))
    }

    /// The highest computed, the last of them if there are several.
    pub fn highest(&self) -> Option<i64> {
        let computeds = self.numbers(|entry| entry.kind == Kind::Computed);
        computeds.into_iter().max_by_key(|&n| self.entry(n).height)
    }

    fn operator(&mut self) -> i64 {
        self.random.one_of(&[3, 3, 4, 5, 6, 7])
    }

    /// Leaves joined one by one: as much nesting as leaves.
    pub fn joined(&mut self, leaves: usize) -> Vec<i64> {
        let mut words = Vec::new();
        for _ in 1..leaves {
            words.extend([self.operator(), 0]);
            words.extend(self.leaf());
        }
        words.extend(self.leaf());
        words
    }

    /// x + (y + x), where y reads x if such a computed is found.
    fn repeated(&mut self) -> Vec<i64> {
        let (Some(x), Some(any)) = (self.source(), self.source()) else {
            return self.leaf();
        };
        let readers = self.numbers(|entry| named(&entry.cells).any(|n| n == x));
        let readers: Vec<i64> =
            readers.into_iter().filter(|&n| self.entry(n).kind == Kind::Computed).collect();
        let y = self.random.any_of(&readers).unwrap_or(any);
        vec![SUM, 0, 2, x, SUM, 0, 2, y, 2, x]
    }

    /// choose(signal, .., ..), alone or before a later read.
    fn switch(&mut self) -> Vec<i64> {
        let signals = self.numbers(|entry| entry.kind == Kind::Signal);
        let mut words = Vec::new();
        if self.random.chance(60) {
            words.extend([self.operator(), 0]);
        }
        let read_later = !words.is_empty();
        words.extend([CHOOSE, 0]);
        match self.random.any_of(&signals) {
            Some(number) => words.extend([2, number]),
            None => words.extend([1, 1]),
        }
        words.extend(self.leaf());
        words.extend(if self.random.chance(30) { self.joined(2) } else { self.leaf() });
        if read_later {
            words.extend(self.leaf());
        }
        words
    }

    fn tree(&mut self, levels: usize) -> Vec<i64> {
        if levels == 0 || self.random.chance(25) {
            return self.leaf();
        }
        let (head, arguments) = match self.random.chance(30) {
            true => (CHOOSE, 3),
            false => (self.operator(), 2),
        };
        let mut words = vec![head, 0];
        for _ in 0..arguments {
            words.extend(self.tree(levels - 1));
        }
        words
    }

    fn large_or_largest(&mut self) -> Vec<i64> {
        let cells = match self.random.chance(40) {
            true => MOST_CELLS,
            false => 2 * self.random.below(MOST_CELLS / 2) + 1,
        };
        let constants = self.random.chance(40);
        self.sized(cells, constants)
    }

    /// Exactly that many cells, any number but 2, with little nesting.
    pub fn sized(&mut self, cells: usize, constants: bool) -> Vec<i64> {
        let (head, arguments) = match cells {
            1 if constants => return vec![1, self.value()],
            1 => return self.leaf(),
            _ if cells.is_multiple_of(2) => (CHOOSE, 3),
            _ => (self.operator(), 2),
        };
        let mut words = vec![head, 0];
        let mut left = cells - 1;
        for argument in (1..=arguments).rev() {
            // An odd share, so that what is left can be shared out the same way.
            let share = if argument == 1 { left } else { (left / argument - 1) | 1 };
            words.extend(self.sized(share, constants));
            left -= share;
        }
        words
    }
}
