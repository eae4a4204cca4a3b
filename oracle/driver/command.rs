//! The ten commands of document 01, with their words told apart but not yet judged.

use super::formula::{Cell, cells_of};

/// The owner word that means none.
pub const NO_OWNER: i64 = -1;

pub enum Command {
    Signal { value: i64 },
    Computed { cells: Vec<Cell> },
    Effect { owner: i64, cells: Vec<Cell> },
    Scope { owner: i64 },
    Set { node: i64, value: i64 },
    Add { node: i64, amount: i64 },
    Read { node: i64 },
    Dispose { node: i64 },
    Start,
    End,
}

impl Command {
    /// None exactly if the code is unknown or the word count wrong: refusal 2.
    pub fn of(words: &[i64]) -> Option<Command> {
        match *words {
            [1, value] => Some(Command::Signal { value }),
            [2, ref cells @ ..] if whole(cells) => {
                Some(Command::Computed { cells: cells_of(cells) })
            }
            [3, owner, ref cells @ ..] if whole(cells) => {
                Some(Command::Effect { owner, cells: cells_of(cells) })
            }
            [4, owner] => Some(Command::Scope { owner }),
            [5, node, value] => Some(Command::Set { node, value }),
            [6, node, amount] => Some(Command::Add { node, amount }),
            [7, node] => Some(Command::Read { node }),
            [8, node] => Some(Command::Dispose { node }),
            [9] => Some(Command::Start),
            [10] => Some(Command::End),
            _ => None,
        }
    }

    /// The formula's cells, of the commands that carry one.
    pub fn cells(&self) -> Option<&[Cell]> {
        match self {
            Command::Computed { cells } | Command::Effect { cells, .. } => Some(cells),
            _ => None,
        }
    }

    /// The owner word, of the commands that carry one.
    pub fn owner(&self) -> Option<i64> {
        match *self {
            Command::Effect { owner, .. } | Command::Scope { owner } => Some(owner),
            _ => None,
        }
    }
}

/// Whole cells, two words each; none at all is left to refusal 5.
fn whole(cells: &[i64]) -> bool {
    cells.len().is_multiple_of(2)
}
