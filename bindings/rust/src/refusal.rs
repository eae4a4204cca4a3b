//! The nine refusals of document 01.

use std::error::Error;
use std::fmt;

/// Why a command was refused. They are tried in number order; a refused command has changed nothing.
///
/// ```
/// use simmerthread::Refusal;
/// assert_eq!(Refusal::Batch.number(), 8);
/// assert_eq!(Refusal::Batch.to_string(), "refusal 8: an end with no batch open, or a start inside 64 batches");
/// ```
#[derive(Clone, Copy, Debug, PartialEq, Eq, PartialOrd, Ord, Hash)]
#[repr(u8)]
pub enum Refusal {
    /// The tables aren't well formed. From [`Tables`](crate::Tables) it comes only if their words were damaged from outside.
    Tables = 1,
    /// Unknown command code or wrong word count. The typed commands never give it.
    Command = 2,
    /// The node or owner is unknown, or of a kind the command doesn't take.
    Node = 3,
    /// The node to dispose, or the owner, is gone.
    Gone = 4,
    /// The formula breaks a rule: more than 64 cells, nested deeper than 16, or a read of what is no signal or computed.
    Formula = 5,
    /// A computed of height over 64, or an owner depth over 16.
    Height = 6,
    /// The node table is full, too few cells are left, or the reserve would exceed the link slots.
    Room = 7,
    /// An end with no batch open, or a start inside 64 batches.
    Batch = 8,
    /// Too few log rows.
    Rows = 9,
}

impl Refusal {
    /// All nine, in number order.
    pub const ALL: [Refusal; 9] = [
        Refusal::Tables,
        Refusal::Command,
        Refusal::Node,
        Refusal::Gone,
        Refusal::Formula,
        Refusal::Height,
        Refusal::Room,
        Refusal::Batch,
        Refusal::Rows,
    ];

    /// Document 01's number.
    pub fn number(self) -> u8 {
        self as u8
    }

    /// What it says, in a sentence.
    pub fn sentence(self) -> &'static str {
        match self {
            Refusal::Tables => "the lent tables aren't well formed",
            Refusal::Command => "unknown command code or wrong word count",
            Refusal::Node => "node or owner number unknown, or of a kind the command doesn't take",
            Refusal::Gone => "the node to dispose, or the owner, is gone",
            Refusal::Formula => "the formula breaks a rule",
            Refusal::Height => "computed of height over 64, or owner depth over 16",
            Refusal::Room => {
                "node table full, too few cells left, or the reserve would exceed the link slots"
            }
            Refusal::Batch => "an end with no batch open, or a start inside 64 batches",
            Refusal::Rows => "too few log rows",
        }
    }

    /// The refusal of this number; none for 0, which is no refusal.
    pub(crate) fn of(number: u64) -> Option<Refusal> {
        let place = usize::try_from(number).ok()?.checked_sub(1)?;
        Self::ALL.get(place).copied()
    }
}

impl fmt::Display for Refusal {
    fn fmt(&self, out: &mut fmt::Formatter<'_>) -> fmt::Result {
        write!(out, "refusal {}: {}", self.number(), self.sentence())
    }
}

impl Error for Refusal {}
