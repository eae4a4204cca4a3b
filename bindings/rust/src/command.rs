//! Document 01's ten commands.

use std::fmt;

use crate::Formula;

/// The number of a node. Nodes are numbered 0, 1, 2.. as made, and no number is used twice.
#[derive(Clone, Copy, Debug, PartialEq, Eq, PartialOrd, Ord, Hash)]
pub struct Node(pub i64);

impl fmt::Display for Node {
    fn fmt(&self, out: &mut fmt::Formatter<'_>) -> fmt::Result {
        write!(out, "#{}", self.0)
    }
}

/// A command as a value, to keep in a journal or to send later. [`Tables`](crate::Tables) has a method for each.
///
/// ```
/// use simmerthread::{Command, Node, sum};
/// let made = Command::Effect { owner: None, formula: sum(Node(0), 1) };
/// assert_eq!(made.words(), [3, -1, 3, 0, 2, 0, 1, 1]);
/// assert_eq!(made.to_string(), "effect #0 + 1");
/// assert_eq!(Command::from_words(&made.words()), Some(made));
/// ```
#[derive(Clone, Debug, PartialEq, Eq, Hash)]
pub enum Command {
    /// A new signal, worth so much.
    Signal {
        /// What it is worth.
        value: i64,
    },
    /// A new computed, not yet evaluated.
    Computed {
        /// What it works out.
        formula: Formula,
    },
    /// A new effect; it runs at once.
    Effect {
        /// An effect or scope that it goes with, or none.
        owner: Option<Node>,
        /// What each run logs.
        formula: Formula,
    },
    /// A new scope.
    Scope {
        /// An effect or scope that it goes with, or none.
        owner: Option<Node>,
    },
    /// Sets a signal.
    Set {
        /// The signal.
        node: Node,
        /// Its new value.
        value: i64,
    },
    /// Sets a signal to so much more than it was worth when last read: a write that nothing has read yet is not in it. It stops at
    /// the ends of the signed 64-bit range.
    Add {
        /// The signal.
        node: Node,
        /// How much.
        amount: i64,
    },
    /// Reads a signal or computed.
    Read {
        /// The signal or computed.
        node: Node,
    },
    /// Disposes of an effect or scope, and of all that it owns.
    Dispose {
        /// The effect or scope.
        node: Node,
    },
    /// A batch starts: effects wait.
    Start,
    /// A batch ends; if it is the last that is open, the effects run.
    End,
}

impl Command {
    /// Document 01's words.
    pub fn words(&self) -> Vec<i64> {
        let mut words = Vec::new();
        self.write_words(&mut words);
        words
    }

    /// The command of these words, if there is one that says them. Whether it is accepted, the engine decides.
    pub fn from_words(words: &[i64]) -> Option<Command> {
        let formula = Formula::from_words;
        Some(match *words {
            [1, value] => Command::Signal { value },
            [2, ref cells @ ..] => Command::Computed { formula: formula(cells)? },
            [3, owner, ref cells @ ..] => {
                Command::Effect { owner: owner_of(owner), formula: formula(cells)? }
            }
            [4, owner] => Command::Scope { owner: owner_of(owner) },
            [5, node, value] => Command::Set { node: Node(node), value },
            [6, node, amount] => Command::Add { node: Node(node), amount },
            [7, node] => Command::Read { node: Node(node) },
            [8, node] => Command::Dispose { node: Node(node) },
            [9] => Command::Start,
            [10] => Command::End,
            _ => return None,
        })
    }

    /// Its text, with other words for its nodes.
    pub fn named<D: fmt::Display>(&self, name: impl Fn(Node) -> D) -> String {
        let mut text = String::new();
        self.write(&mut text, &name).expect("a string takes all");
        text
    }

    fn write<D: fmt::Display>(
        &self,
        out: &mut dyn fmt::Write,
        name: &dyn Fn(Node) -> D,
    ) -> fmt::Result {
        let owned = |owner: &Option<Node>| {
            owner.map_or(String::new(), |owner| format!(" owned by {}", name(owner)))
        };
        match self {
            Command::Signal { value } => write!(out, "signal {value}"),
            Command::Computed { formula } => {
                out.write_str("computed ")?;
                formula.write(out, name)
            }
            Command::Effect { owner, formula } => {
                out.write_str("effect ")?;
                formula.write(out, name)?;
                out.write_str(&owned(owner))
            }
            Command::Scope { owner } => write!(out, "scope{}", owned(owner)),
            Command::Set { node, value } => write!(out, "set {} to {value}", name(*node)),
            Command::Add { node, amount } => write!(out, "add {amount} to {}", name(*node)),
            Command::Read { node } => write!(out, "read {}", name(*node)),
            Command::Dispose { node } => write!(out, "dispose of {}", name(*node)),
            Command::Start => out.write_str("start a batch"),
            Command::End => out.write_str("end a batch"),
        }
    }

    /// The same words into a list that may have room already.
    pub(crate) fn write_words(&self, words: &mut Vec<i64>) {
        words.clear();
        match self {
            Command::Signal { value } => words.extend([1, *value]),
            Command::Computed { formula } => {
                words.push(2);
                words.extend(formula.words());
            }
            Command::Effect { owner, formula } => {
                words.extend([3, owner_word(*owner)]);
                words.extend(formula.words());
            }
            Command::Scope { owner } => words.extend([4, owner_word(*owner)]),
            Command::Set { node, value } => words.extend([5, node.0, *value]),
            Command::Add { node, amount } => words.extend([6, node.0, *amount]),
            Command::Read { node } => words.extend([7, node.0]),
            Command::Dispose { node } => words.extend([8, node.0]),
            Command::Start => words.push(9),
            Command::End => words.push(10),
        }
    }
}

/// -1 means none. As a node's number, which no node has, it goes as another that no node has.
fn owner_word(owner: Option<Node>) -> i64 {
    match owner {
        None => -1,
        Some(Node(-1)) => i64::MIN,
        Some(Node(number)) => number,
    }
}

fn owner_of(word: i64) -> Option<Node> {
    (word != -1).then_some(Node(word))
}

impl fmt::Display for Command {
    fn fmt(&self, out: &mut fmt::Formatter<'_>) -> fmt::Result {
        self.write(out, &|node| node)
    }
}
