//! What an accepted command answers.

use std::fmt;

use crate::Node;

/// One run of an effect: a payout to hand on.
#[derive(Clone, Copy, Debug, PartialEq, Eq, Hash)]
pub struct Run {
    /// The effect that ran.
    pub effect: Node,
    /// What its formula was worth.
    pub value: i64,
}

impl fmt::Display for Run {
    fn fmt(&self, out: &mut fmt::Formatter<'_>) -> fmt::Result {
        write!(out, "{}: {}", self.effect, self.value)
    }
}

/// The answer of an accepted command. It borrows the log: take the runs before the next command writes over them.
///
/// ```
/// use simmerthread::{Room, Tables};
/// let mut tables = Tables::new(Room::PROGRAM).unwrap();
/// let sale = tables.signal(5).unwrap();
/// let answer = tables.effect(None, sale).unwrap();
/// assert_eq!(answer.to_string(), "1, and 1 run: #1: 5");
/// ```
#[derive(Clone, Copy, Debug, PartialEq, Eq)]
pub struct Answer<'a> {
    /// The new node's number, or what was read; else 0.
    pub value: i64,
    pub(crate) rows: &'a [[i64; 2]],
}

impl<'a> Answer<'a> {
    /// The effects that ran, in order.
    pub fn runs(&self) -> impl ExactSizeIterator<Item = Run> + use<'a> {
        self.rows.iter().map(|&[effect, value]| Run { effect: Node(effect), value })
    }

    /// The value as a number of a node: of the commands that make one.
    pub fn node(&self) -> Node {
        Node(self.value)
    }
}

impl fmt::Display for Answer<'_> {
    fn fmt(&self, out: &mut fmt::Formatter<'_>) -> fmt::Result {
        write!(out, "{}", self.value)?;
        match self.rows.len() {
            0 => return Ok(()),
            1 => out.write_str(", and 1 run: ")?,
            count => write!(out, ", and {count} runs: ")?,
        }
        for (i, run) in self.runs().enumerate() {
            if i > 0 {
                out.write_str(", ")?;
            }
            write!(out, "{run}")?;
        }
        Ok(())
    }
}
