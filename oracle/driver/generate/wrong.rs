//! Commands that are meant to be refused, and pairs that can't be read.

use super::Writer;
use crate::driver::books::Kind;
use crate::driver::command::NO_OWNER;
use crate::driver::formula::{MOST_CELLS, MOST_NESTING};
use crate::driver::refusals::judge;
use crate::driver::script::{MOST_BYTES, Pair, read_pair, write_pair};

impl Writer {
    /// A command that some refusal meets; the rare ones, 7 and 9, are aimed at most often.
    pub fn wrong(&mut self) -> Vec<i64> {
        for _ in 0..20 {
            let words = match self.random.below(10) + 2 {
                2 => self.miscounted(),
                3 => self.misdirected(),
                4 => self.on_a_gone_node(),
                5 => self.with_a_broken_formula(),
                6 => self.too_high_or_deep(),
                7 => self.too_large(),
                8 => vec![self.random.one_of(&[9, 10])],
                9 => self.filling(),
                _ => self.wanting_rows(),
            };
            if judge(self.books(), &words).is_err() {
                return words;
            }
        }
        vec![0]
    }

    fn miscounted(&mut self) -> Vec<i64> {
        let mut words = self.draw();
        match self.random.below(16) {
            0..5 => words[0] = self.random.one_of(&[0, 11, 12, -1, i64::MAX, i64::MIN]),
            5..10 => words.push(self.random.below(3) as i64),
            10..15 if words.len() > 1 => words.truncate(words.len() - 1),
            // The longest line there may be, its words one digit each.
            _ => words = [vec![5], vec![1; (MOST_BYTES - "args=".len()).div_ceil(2)]].concat(),
        }
        words
    }

    fn misdirected(&mut self) -> Vec<i64> {
        let next = self.books().nodes.len() as i64;
        let strange = [next, next + 1, -1, -2, i64::MAX, i64::MIN];
        let number = match self.random.chance(50) {
            true => self.random.one_of(&strange),
            false => self.random.below(next as usize + 1) as i64,
        };
        match self.random.below(6) {
            0 => vec![5, number, 1],
            1 => vec![6, number, 1],
            2 => vec![7, number],
            3 => vec![8, number],
            4 => vec![4, number],
            _ => [vec![3, number], self.formula()].concat(),
        }
    }

    fn on_a_gone_node(&mut self) -> Vec<i64> {
        let gone = self.numbers(|entry| entry.gone);
        match (self.random.any_of(&gone), self.random.below(3)) {
            (None, _) => vec![8, 0],
            (Some(number), 0) => vec![8, number],
            (Some(number), 1) => vec![4, number],
            (Some(number), _) => [vec![3, number], self.formula()].concat(),
        }
    }

    fn with_a_broken_formula(&mut self) -> Vec<i64> {
        let cells = self.broken_formula();
        match self.random.chance(50) {
            true => [vec![2], cells].concat(),
            false => [vec![3, NO_OWNER], cells].concat(),
        }
    }

    fn broken_formula(&mut self) -> Vec<i64> {
        let mut cells = self.formula();
        let unread = self.numbers(|entry| matches!(entry.kind, Kind::Effect | Kind::Scope));
        let at = 2 * self.random.below(cells.len() / 2);
        match self.random.below(9) {
            0 => cells.clear(),
            1 => cells.extend([1, 0]),
            2 => cells.truncate(cells.len() - 2),
            3 => cells[at] = self.random.one_of(&[0, 9, -1, i64::MAX, i64::MIN]),
            4 => cells = [vec![self.random.one_of(&[3, 8]), 1], cells.clone(), cells].concat(),
            5 => cells = vec![2, self.random.one_of(&[-1, self.books().nodes.len() as i64])],
            6 => cells = vec![2, self.random.any_of(&unread).unwrap_or(i64::MAX)],
            7 => cells = self.sized(MOST_CELLS + 1, false),
            _ => cells = self.joined(MOST_NESTING + 1),
        }
        cells
    }

    fn too_high_or_deep(&mut self) -> Vec<i64> {
        let live = self.live();
        let deepest = live.into_iter().max_by_key(|&n| self.entry(n).owner_depth);
        match (self.random.below(3), self.highest(), deepest) {
            (0, Some(highest), _) => vec![2, 2, highest],
            (1, _, Some(deepest)) => vec![4, deepest],
            (_, _, Some(deepest)) => vec![3, deepest, 1, 0],
            _ => vec![2],
        }
    }

    fn too_large(&mut self) -> Vec<i64> {
        let live = self.live();
        let owner = self.random.any_of(&live).unwrap_or(NO_OWNER);
        let constants = self.random.chance(50);
        match self.random.below(4) {
            0 => vec![1, 0],
            1 => vec![4, owner],
            2 => [vec![2], self.sized(MOST_CELLS, constants)].concat(),
            _ => [vec![3, owner], self.sized(MOST_CELLS, constants)].concat(),
        }
    }

    /// A node without a formula: only a full node table, or a full reserve, refuses it.
    fn filling(&mut self) -> Vec<i64> {
        let live = self.live();
        match self.random.any_of(&live) {
            Some(owner) if self.random.chance(50) => vec![4, owner],
            _ => vec![1, 0],
        }
    }

    fn wanting_rows(&mut self) -> Vec<i64> {
        let signals = self.numbers(|entry| entry.kind == Kind::Signal);
        match (self.random.any_of(&signals), self.books().depth) {
            (Some(number), 0) => vec![self.random.one_of(&[5, 6]), number, self.value()],
            (_, 1) => vec![10],
            _ => vec![3, NO_OWNER, 1, 0],
        }
    }

    /// The bytes of a pair that can't be read.
    pub fn malformed(&mut self) -> Vec<u8> {
        let mut pair = Vec::new();
        write_pair(&self.draw(), &mut pair).expect("memory takes every write");
        let broken = match self.random.below(16) {
            0 => b"cmx=1\nargs=5\n".to_vec(),
            1 => b"args=5\ncmd=1\n".to_vec(),
            2 => b"cmd=1\nargs=05\n".to_vec(),
            3 => b"cmd=1\nargs=+5\n".to_vec(),
            4 => b"cmd=1\nargs=-0\n".to_vec(),
            5 => b"cmd=1\nargs=9223372036854775808\n".to_vec(),
            6 => b"cmd=1\nargs=-9223372036854775809\n".to_vec(),
            7 => b"cmd=5\nargs=0  1\n".to_vec(),
            8 => b"cmd=1\nargs=5 \n".to_vec(),
            9 => b"cmd=1\r\nargs=5\r\n".to_vec(),
            10 => b"cmd=\nargs=5\n".to_vec(),
            11 => b"cmd=1 1\nargs=5\n".to_vec(),
            12 => [b"cmd=5\nargs=1".as_slice(), &b" 1".repeat(MOST_BYTES / 2), b"\n"].concat(),
            13 => b"\xff\x00\n".to_vec(),
            14 => b"\n".to_vec(),
            // Cut off by the end of the script, anywhere but at its start or end.
            _ => pair[..1 + self.random.below(pair.len() - 1)].to_vec(),
        };
        let read = read_pair(&mut broken.as_slice()).expect("memory gives every read");
        assert!(matches!(read, Pair::Unreadable), "a malformed pair was readable");
        broken
    }
}
