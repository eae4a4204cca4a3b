//! The lent tables as words: which word is which, as `rows` of the crate `primitive` lists them.
//! This and what docs/DECISIONS.md adds (3, 5, 23, 36, 37) are all that the judge shares with the
//! port.

/// Words of a row of the node table, and its fields. Row 0 is the header, node n is row n + 1.
pub const NODE: usize = 16;
pub const FLAGS: usize = 0;
pub const KIND: usize = 1;
pub const GONE: usize = 2;
pub const DEPS: usize = 3;
pub const DEPS_TAIL: usize = 4;
pub const SUBS: usize = 5;
pub const SUBS_TAIL: usize = 6;
pub const START: usize = 7;
pub const CELLS: usize = 8;
pub const READS: usize = 9;
pub const OWNER: usize = 10;
pub const LEVEL: usize = 11;
pub const QUEUE: usize = 12;
/// Of its header; the queue's length is the header's QUEUE.
pub const COUNT: usize = 7;
pub const USED: usize = 8;
pub const DEPTH: usize = 9;

/// Words of a row of the link table, and its fields. Row 0 is the header, slot s is row s + 1.
pub const LINK: usize = 8;
pub const VERSION: usize = 0;
pub const DEP: usize = 1;
pub const SUB: usize = 2;
pub const PREV_SUB: usize = 3;
pub const NEXT_SUB: usize = 4;
pub const PREV_DEP: usize = 5;
pub const NEXT_DEP: usize = 6;
pub const LIVE: usize = 7;
/// Of its header: the evaluation cycle, and the head of the free list, which runs along NEXT_DEP.
pub const CYCLE: usize = 0;
pub const FREE: usize = 6;

/// A node's values: current and pending, each with a spare word. A cell is a code and an operand.
pub const VALUES: usize = 4;
pub const CELL: usize = 2;

pub const SIGNAL: u64 = 1;
pub const COMPUTED: u64 = 2;
pub const EFFECT: u64 = 3;
pub const SCOPE: u64 = 4;

#[derive(Clone, PartialEq, Eq)]
pub struct Tables {
    pub nodes: Vec<u64>,
    pub links: Vec<u64>,
    pub values: Vec<i64>,
    pub cells: Vec<i64>,
}

impl Tables {
    /// All words 0.
    pub fn blank(nodes: usize, slots: usize, cells: usize) -> Tables {
        Tables {
            nodes: vec![0; NODE * (nodes + 1)],
            links: vec![0; LINK * (slots + 1)],
            values: vec![0; VALUES * nodes],
            cells: vec![0; CELL * cells],
        }
    }

    /// No nodes, and all slots free, the lowest first.
    pub fn empty(nodes: usize, slots: usize, cells: usize) -> Tables {
        let mut tables = Tables::blank(nodes, slots, cells);
        tables.links[FREE] = 1;
        for slot in 0..slots - 1 {
            tables.set_link(slot, NEXT_DEP, slot as u64 + 2);
        }
        tables
    }

    pub fn node(&self, n: usize, field: usize) -> u64 {
        self.nodes[NODE * (n + 1) + field]
    }

    pub fn link(&self, slot: usize, field: usize) -> u64 {
        self.links[LINK * (slot + 1) + field]
    }

    pub fn set_node(&mut self, n: usize, field: usize, word: u64) {
        self.nodes[NODE * (n + 1) + field] = word;
    }

    pub fn set_link(&mut self, slot: usize, field: usize, word: u64) {
        self.links[LINK * (slot + 1) + field] = word;
    }
}

/// The word for one of several things, or for nothing.
pub fn word(thing: Option<usize>) -> u64 {
    thing.map_or(0, |number| number as u64 + 1)
}
