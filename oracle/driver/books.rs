//! The books: what document 01 says of each node, kept from its text alone.
//! Of the engine they learn one thing, which effects ran. Counts are made afresh each time.

use super::command::{Command, NO_OWNER};
use super::formula::{Cell, named};

/// The capacities: nodes, link slots, cells, and rows of the lent log.
#[derive(Clone, Copy)]
pub struct Room {
    pub nodes: usize,
    pub links: usize,
    pub cells: usize,
    pub rows: usize,
}

impl Room {
    pub const PROGRAM: Room = Room { nodes: 256, links: 1_024, cells: 2_048, rows: 256 };
    pub const MOST: Room = Room { nodes: 1_024, links: 8_192, cells: 8_192, rows: usize::MAX };
}

#[derive(Clone, Copy, PartialEq, Eq)]
pub enum Kind {
    Signal,
    Computed,
    Effect,
    Scope,
}

pub struct Entry {
    pub kind: Kind,
    pub gone: bool,
    pub owner: Option<usize>,
    /// Of effects and scopes; 0 for the others.
    pub owner_depth: usize,
    /// Of signals and computeds; 0 for the others.
    pub height: usize,
    pub cells: Vec<Cell>,
}

impl Entry {
    /// Twice the read cells of a computed or a live effect, and 1 for a live owned node.
    fn reserve(&self) -> usize {
        match self.gone {
            true => 0,
            false => reserve_for(&self.cells, self.owner.is_some()),
        }
    }

    fn is_live_effect(&self) -> bool {
        self.kind == Kind::Effect && !self.gone
    }
}

/// The reserve a node with these cells asks for.
pub fn reserve_for(cells: &[Cell], owned: bool) -> usize {
    2 * named(cells).count() + usize::from(owned)
}

/// One run of an effect: a row of the log.
#[derive(Clone, Copy)]
pub struct Row {
    pub effect: usize,
    pub value: i64,
}

pub struct Books {
    pub room: Room,
    pub nodes: Vec<Entry>,
    /// How many batches are open.
    pub depth: usize,
}

impl Books {
    pub fn new(room: Room) -> Self {
        Books { room, nodes: Vec::new(), depth: 0 }
    }

    /// The node of that number, if there is one.
    pub fn find(&self, number: i64) -> Option<&Entry> {
        self.nodes.get(usize::try_from(number).ok()?)
    }

    pub fn cells_used(&self) -> usize {
        self.nodes.iter().map(|entry| entry.cells.len()).sum()
    }

    pub fn reserve(&self) -> usize {
        self.nodes.iter().map(Entry::reserve).sum()
    }

    pub fn live_effects(&self) -> usize {
        self.nodes.iter().filter(|entry| entry.is_live_effect()).count()
    }

    /// The height of a computed with these cells: one more than the greatest it names.
    pub fn height_of(&self, cells: &[Cell]) -> usize {
        let heights = named(cells).filter_map(|n| self.find(n)).map(|entry| entry.height);
        1 + heights.max().unwrap_or(0)
    }

    /// The owner depth of a node made under this owner: 1 with none.
    pub fn depth_under(&self, owner: i64) -> usize {
        1 + self.find(owner).map_or(0, |entry| entry.owner_depth)
    }

    /// Enters an accepted command and the runs it made.
    pub fn enter(&mut self, command: &Command, rows: &[Row]) {
        match command {
            Command::Signal { .. } => self.add(Kind::Signal, NO_OWNER, &[]),
            Command::Computed { cells } => self.add(Kind::Computed, NO_OWNER, cells),
            Command::Effect { owner, cells } => self.add(Kind::Effect, *owner, cells),
            Command::Scope { owner } => self.add(Kind::Scope, *owner, &[]),
            Command::Dispose { node } => self.dispose(*node as usize),
            Command::Start => self.depth += 1,
            Command::End => self.depth -= 1,
            Command::Set { .. } | Command::Add { .. } | Command::Read { .. } => {}
        }
        // At its first run an effect owns nothing yet, so every row may be treated as a rerun.
        for row in rows {
            self.dispose_owned(row.effect);
        }
    }

    fn add(&mut self, kind: Kind, owner: i64, cells: &[Cell]) {
        let entry = Entry {
            kind,
            gone: false,
            owner: usize::try_from(owner).ok(),
            owner_depth: match kind {
                Kind::Effect | Kind::Scope => self.depth_under(owner),
                Kind::Signal | Kind::Computed => 0,
            },
            height: match kind {
                Kind::Computed => self.height_of(cells),
                Kind::Signal | Kind::Effect | Kind::Scope => 0,
            },
            cells: cells.to_vec(),
        };
        self.nodes.push(entry);
    }

    fn dispose(&mut self, number: usize) {
        self.nodes[number].gone = true;
        self.dispose_owned(number);
    }

    /// Owners have lower numbers than what they own, so one pass reaches everything below.
    fn dispose_owned(&mut self, root: usize) {
        for number in root + 1..self.nodes.len() {
            let Some(owner) = self.nodes[number].owner else {
                continue;
            };
            if owner == root || self.nodes[owner].gone {
                self.nodes[number].gone = true;
            }
        }
    }
}
