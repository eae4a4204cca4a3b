//! Refusals 2 to 9 of well-formed tables, by the oracle's own rules: its books, read off the words.

use oracle::driver::books::{Books, Entry, Kind, Room};
use oracle::driver::formula::cells_of;
use oracle::driver::refusals::judge;

use super::layout::*;

/// The number that document 01 gives, 0 for none. Nothing if formulas share cells or leave gaps:
/// the books take the cells in use to be the sum of the formulas.
pub fn refusal(tables: &Tables, log: &[i64], command: &[i64]) -> Option<u64> {
    let room = Room {
        nodes: tables.nodes.len() / NODE - 1,
        links: tables.links.len() / LINK - 1,
        cells: tables.cells.len() / CELL,
        rows: log.len() / 2,
    };
    let mut books = Books::new(room);
    books.depth = tables.nodes[DEPTH] as usize;
    books.nodes = (0..tables.nodes[COUNT] as usize).map(|n| entry(tables, n)).collect();
    let summed = books.cells_used() as u64 == tables.nodes[USED];
    summed.then(|| judge(&books, command).err().map_or(0, u64::from))
}

fn entry(tables: &Tables, n: usize) -> Entry {
    let (kind, height, owner_depth) = match (tables.node(n, KIND), tables.node(n, LEVEL) as usize) {
        (SIGNAL, _) => (Kind::Signal, 0, 0),
        (COMPUTED, level) => (Kind::Computed, level, 0),
        (EFFECT, level) => (Kind::Effect, 0, level),
        (_, level) => (Kind::Scope, 0, level),
    };
    let (start, cells) = match kind {
        Kind::Computed | Kind::Effect => (tables.node(n, START), tables.node(n, CELLS)),
        Kind::Signal | Kind::Scope => (0, 0),
    };
    Entry {
        kind,
        gone: tables.node(n, GONE) == 1,
        owner: (tables.node(n, OWNER) as usize).checked_sub(1),
        owner_depth,
        height,
        cells: cells_of(&tables.cells[CELL * start as usize..][..CELL * cells as usize]),
    }
}
