//! More choices for tables.

use super::random::Random;

impl Random {
    /// Any word, often a small one or an end of a range.
    pub fn word(&mut self) -> u64 {
        let any = self.next();
        match any % 8 {
            0..4 => (any >> 8) % 12,
            4 => (any >> 8) % 10_000,
            5 => u64::MAX - (any >> 8) % 3,
            6 => (1 << 63) - 1 + (any >> 8) % 3,
            _ => self.next(),
        }
    }

    pub fn shuffle<T>(&mut self, list: &mut [T]) {
        for place in (1..list.len()).rev() {
            let other = self.below(place + 1);
            list.swap(place, other);
        }
    }
}
