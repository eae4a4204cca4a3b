//! One word of tables changed, in a column chosen by name.

use super::layout::*;
use super::random::Random;

/// Which of the four tables, and its words: those of rows that are in use, of the others, of the
/// header.
#[derive(Clone, Copy)]
pub enum Place {
    Node(usize),
    /// A word of the queue's column, within the queue or past it.
    Queued,
    Unqueued,
    UnusedNode,
    NodeHeader(usize),
    Link(usize),
    FreeLink(usize),
    LinkHeader(usize),
    Cell(usize),
    UnusedCell,
    Value(usize),
    /// The length of one of the four tables, by a word or by a row.
    Length(usize),
}
use Place::*;

pub const COLUMNS: [(&str, Place); 53] = [
    ("node flags", Node(FLAGS)),
    ("node kind", Node(KIND)),
    ("node gone", Node(GONE)),
    ("node deps", Node(DEPS)),
    ("node deps tail", Node(DEPS_TAIL)),
    ("node subs", Node(SUBS)),
    ("node subs tail", Node(SUBS_TAIL)),
    ("node start", Node(START)),
    ("node cells", Node(CELLS)),
    ("node reads", Node(READS)),
    ("node owner", Node(OWNER)),
    ("node level", Node(LEVEL)),
    ("queue entry", Queued),
    ("queue past its length", Unqueued),
    ("node spare 13", Node(13)),
    ("node spare 14", Node(14)),
    ("node spare 15", Node(15)),
    ("rows past the last node", UnusedNode),
    ("header count", NodeHeader(COUNT)),
    ("header cells in use", NodeHeader(USED)),
    ("header depth", NodeHeader(DEPTH)),
    ("header queue length", NodeHeader(QUEUE)),
    ("header spare 0", NodeHeader(0)),
    ("header spare 6", NodeHeader(6)),
    ("header spare 15", NodeHeader(15)),
    ("link version", Link(VERSION)),
    ("link dep", Link(DEP)),
    ("link sub", Link(SUB)),
    ("link prev sub", Link(PREV_SUB)),
    ("link next sub", Link(NEXT_SUB)),
    ("link prev dep", Link(PREV_DEP)),
    ("link next dep", Link(NEXT_DEP)),
    ("link live", Link(LIVE)),
    ("free version", FreeLink(VERSION)),
    ("free dep", FreeLink(DEP)),
    ("free sub", FreeLink(SUB)),
    ("free prev sub", FreeLink(PREV_SUB)),
    ("free next sub", FreeLink(NEXT_SUB)),
    ("free prev dep", FreeLink(PREV_DEP)),
    ("free list next", FreeLink(NEXT_DEP)),
    ("free live mark", FreeLink(LIVE)),
    ("header cycle", LinkHeader(CYCLE)),
    ("header free list", LinkHeader(FREE)),
    ("header link spare", LinkHeader(3)),
    ("cell code", Cell(0)),
    ("cell operand", Cell(1)),
    ("cells past those in use", UnusedCell),
    ("value current", Value(0)),
    ("value pending and spare", Value(1)),
    ("length of nodes", Length(NODE)),
    ("length of links", Length(LINK)),
    ("length of values", Length(VALUES)),
    ("length of cells", Length(CELL)),
];

/// Changes one word of the column; false if there is none, or it came out the same.
pub fn change(tables: &mut Tables, place: Place, random: &mut Random) -> bool {
    if let Length(row) = place {
        return match row {
            NODE => length(&mut tables.nodes, NODE, random),
            LINK => length(&mut tables.links, LINK, random),
            VALUES => length(&mut tables.values, VALUES, random),
            _ => length(&mut tables.cells, CELL, random),
        };
    }
    match (place, word_of(tables, place, random)) {
        (_, None) => false,
        (Link(_) | FreeLink(_) | LinkHeader(_), Some(at)) => {
            natural(&mut tables.links, at, LINK, random)
        }
        (Cell(_) | UnusedCell, Some(at)) => integer(&mut tables.cells, at, random),
        (Value(_), Some(at)) => integer(&mut tables.values, at, random),
        (_, Some(at)) => natural(&mut tables.nodes, at, NODE, random),
    }
}

/// Where in its table a word of the column stands, if there is any.
fn word_of(tables: &Tables, place: Place, random: &mut Random) -> Option<usize> {
    let (count, used) = (tables.nodes[COUNT] as usize, tables.nodes[USED] as usize);
    let (rows, queued) = (tables.nodes.len() / NODE, tables.nodes[QUEUE] as usize);
    let slots = 0..tables.links.len() / LINK - 1;
    let (live, free): (Vec<usize>, Vec<usize>) =
        slots.partition(|&slot| tables.link(slot, LIVE) != 0);
    match place {
        Node(field) => pick(random, 0..count).map(|n| NODE * (n + 1) + field),
        Queued => pick(random, 0..queued).map(|n| NODE * (n + 1) + QUEUE),
        Unqueued => pick(random, queued..rows - 1).map(|n| NODE * (n + 1) + QUEUE),
        UnusedNode => pick(random, NODE * (count + 1)..NODE * rows),
        NodeHeader(field) | LinkHeader(field) => Some(field),
        Link(field) => random.any_of(&live).map(|slot| LINK * (slot + 1) + field),
        FreeLink(field) => random.any_of(&free).map(|slot| LINK * (slot + 1) + field),
        Cell(field) => pick(random, 0..used).map(|cell| CELL * cell + field),
        UnusedCell => pick(random, CELL * used..tables.cells.len()),
        Value(0) => pick(random, 0..count).map(|n| VALUES * n),
        Value(_) => pick(random, 0..count).map(|n| VALUES * n + 1 + random.below(VALUES - 1)),
        Length(_) => None,
    }
}

fn length<T: Clone + Default>(words: &mut Vec<T>, row: usize, random: &mut Random) -> bool {
    let by = random.one_of(&[1, row]);
    match random.chance(50) {
        true => words.resize(words.len() + by, T::default()),
        false => words.truncate(words.len().saturating_sub(by)),
    }
    true
}

fn pick(random: &mut Random, range: std::ops::Range<usize>) -> Option<usize> {
    (!range.is_empty()).then(|| range.start + random.below(range.len()))
}

/// One more or less, the same field of another row, one bit, or anything; flags are often a byte
/// that some node may have.
fn natural(words: &mut [u64], at: usize, wide: usize, random: &mut Random) -> bool {
    let old = words[at];
    let flags = wide == NODE && at % NODE == FLAGS;
    let other = words[at % wide + wide * random.below(words.len() / wide)];
    words[at] = match random.below(12) {
        0..5 if flags => random.one_of(&[0, 1, 2, 17, 32, 33, 48, 49]),
        0..3 => old.wrapping_add(1),
        3..6 => old.wrapping_sub(1),
        6..8 => other,
        8 => 0,
        9 => old ^ 1 << random.below(64),
        10 => old ^ 1 << random.below(7),
        _ => random.word(),
    };
    words[at] != old
}

fn integer(words: &mut [i64], at: usize, random: &mut Random) -> bool {
    let old = words[at];
    let other = words[at % 2 + 2 * random.below(words.len() / 2)];
    words[at] = match random.below(10) {
        0..2 => old.wrapping_add(1),
        2..4 => old.wrapping_sub(1),
        4..7 => other,
        7 => old ^ 1 << random.below(64),
        8 => random.below(10) as i64,
        _ => random.word() as i64,
    };
    words[at] != old
}
