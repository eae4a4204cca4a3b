//! Why a command was refused, told from the tables that it left as they were. The engine has decided; this finds what it met.

use simmerthread::{Kind, Node, Refusal, Tables};

use crate::names::Names;

const MOST_CELLS: usize = 64;
const MOST_NESTING: usize = 16;

pub fn cause(tables: &Tables, words: &[i64], refusal: Refusal, names: &Names) -> String {
    match refusal {
        Refusal::Tables => "somebody wrote into them".to_string(),
        Refusal::Command => wrong_words(words),
        Refusal::Node => wrong_node(tables, words, names),
        Refusal::Gone => format!("{} is gone", names.of(Node(words[1]))),
        Refusal::Formula => wrong_formula(tables, cells(words), names),
        Refusal::Height => too_high(tables, words),
        Refusal::Room => no_room(tables, words),
        Refusal::Batch => match tables.depth() {
            0 => "no batch is open".to_string(),
            depth => format!("{depth} batches are open"),
        },
        Refusal::Rows => {
            let (live, rows) = (tables.taken().rows, tables.room().rows);
            format!("live effects are {live}, log rows {rows}")
        }
    }
}

fn wrong_words(words: &[i64]) -> String {
    let (code, given) = (words[0], words.len() - 1);
    let wanted = match code {
        2 => return "half a cell is left over".to_string(),
        3 if given == 0 => return "an effect has an owner, or -1 for none".to_string(),
        3 => return "half a cell is left over behind the owner".to_string(),
        1 | 4 | 7 | 8 => "1 number",
        5 | 6 => "2 numbers",
        9 | 10 => "no numbers",
        _ => return format!("there is no command {code}"),
    };
    format!("command {code} takes {wanted}, and has {given}")
}

fn wrong_node(tables: &Tables, words: &[i64], names: &Names) -> String {
    let node = Node(words[1]);
    let takes = match words[0] {
        5 | 6 => "only a signal is written to",
        7 => "only a signal or a computed is read",
        8 => "only an effect or a scope is disposed of",
        _ => "only an effect or a scope owns",
    };
    match tables.record(node) {
        None => format!("no node {} was made", node.0),
        Some(record) => format!("{} is {}, and {takes}", names.of(node), a(record.kind())),
    }
}

fn a(kind: Kind) -> String {
    let article = if kind == Kind::Effect { "an" } else { "a" };
    format!("{article} {kind}")
}

/// The cells of commands 2 and 3; others have none.
fn cells(words: &[i64]) -> &[[i64; 2]] {
    match words {
        [2, cells @ ..] | [3, _, cells @ ..] => cells.as_chunks().0,
        _ => &[],
    }
}

/// The nodes that their read cells name.
fn reads(words: &[i64]) -> impl Iterator<Item = Node> {
    cells(words).iter().filter(|[code, _]| *code == 2).map(|&[_, node]| Node(node))
}

fn wrong_formula(tables: &Tables, cells: &[[i64; 2]], names: &Names) -> String {
    if cells.is_empty() {
        return "it has no cells".to_string();
    }
    if cells.len() > MOST_CELLS {
        return format!("it has {} cells", cells.len());
    }
    // The arguments still owed to each expression that is open.
    let mut owed = Vec::new();
    let mut nesting = 0;
    for (place, &[code, operand]) in cells.iter().enumerate() {
        let cell = place + 1;
        if place > 0 && owed.is_empty() {
            return format!("the expression ends before cell {cell} of {}", cells.len());
        }
        nesting = nesting.max(owed.len() + 1);
        match code {
            1 => {}
            2 => match tables.record(Node(operand)) {
                None => return format!("cell {cell} reads node {operand}, which was never made"),
                Some(record) => {
                    if let Kind::Effect | Kind::Scope = record.kind() {
                        let node = names.of(Node(operand));
                        return format!("cell {cell} reads {node}, {}", a(record.kind()));
                    }
                }
            },
            3..=8 if operand != 0 => {
                return format!("cell {cell} has the code {code} and the operand {operand}, not 0");
            }
            3..=7 => owed.push(2),
            8 => owed.push(3),
            _ => return format!("cell {cell} has the unknown code {code}"),
        }
        if code < 3 {
            while let Some(last) = owed.last_mut() {
                *last -= 1;
                if *last > 0 {
                    break;
                }
                owed.pop();
            }
        }
    }
    if owed.is_empty() && nesting > MOST_NESTING {
        return format!("it is nested {nesting} deep");
    }
    // Each open expression but the first is itself one of those owed.
    match owed.iter().sum::<usize>() + 1 - owed.len() {
        1 => "an argument is missing at its end".to_string(),
        missing => format!("{missing} arguments are missing at its end"),
    }
}

fn too_high(tables: &Tables, words: &[i64]) -> String {
    let level = |node| tables.record(node).map_or(0, |record| record.level());
    match words[0] {
        2 => {
            let highest = reads(words).map(level).max().unwrap_or(0);
            format!("its height would be {}", highest + 1)
        }
        _ => format!("its owner depth would be {}", level(Node(words[1])) + 1),
    }
}

fn no_room(tables: &Tables, words: &[i64]) -> String {
    let (room, taken) = (tables.room(), tables.taken());
    let cells = cells(words).len();
    let owned = matches!(words, [3 | 4, owner, ..] if *owner != -1);
    if taken.nodes == room.nodes {
        format!("all {} nodes are made", room.nodes)
    } else if taken.cells + cells > room.cells {
        format!("it has {cells} cells, and {} are left", room.cells - taken.cells)
    } else {
        let links = 2 * reads(words).count() + usize::from(owned);
        format!("it wants {links} links in reserve, and {} are left", room.links - taken.links)
    }
}
