//! What many commands answer.

use crate::{Answer, Refusal};

/// The answers of the commands that were done, in order, each as it would have been alone. It borrows the tables: take the runs before
/// the next command.
#[derive(Clone, Copy, Debug, PartialEq, Eq)]
pub struct Answers<'a> {
    pub(crate) answers: &'a [[i64; 3]],
    pub(crate) rows: &'a [[i64; 2]],
}

impl<'a> Answers<'a> {
    /// How many commands were done. If not all, the next wants more rows than are left; those behind it were not looked at.
    pub fn done(&self) -> usize {
        self.answers.len()
    }

    /// The answer of each command that was done.
    pub fn iter(&self) -> impl Iterator<Item = Result<Answer<'a>, Refusal>> + use<'a> {
        let mut rows = self.rows;
        self.answers.iter().map(move |&[code, value, runs]| {
            let (own, rest) =
                rows.split_at(usize::try_from(runs).expect("runs are counted from 0"));
            rows = rest;
            match Refusal::of(u64::try_from(code).expect("a code is 0 or a refusal")) {
                None => Ok(Answer { value, rows: own }),
                Some(refusal) => Err(refusal),
            }
        })
    }
}
