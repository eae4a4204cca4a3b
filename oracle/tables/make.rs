//! Plans of well-formed tables that no run need reach: links in any order and number, twice or
//! missing, any flags that are allowed, a queue and a free list in any order, gone nodes among it,
//! depths 0 to 64.

use super::layout::*;
use super::plan::{Node, Plan};
use super::random::Random;

/// How large a plan may get.
pub struct Size {
    pub nodes: usize,
    pub cells: usize,
}

impl Size {
    pub fn any(random: &mut Random) -> Size {
        match random.below(1_000) {
            0 => Size { nodes: 1_024, cells: 8_192 },
            1..20 => Size { nodes: 150, cells: 700 },
            20..500 => Size { nodes: 24, cells: 150 },
            _ => Size { nodes: 9, cells: 70 },
        }
    }
}

pub fn plan(random: &mut Random) -> Plan {
    let size = Size::any(random);
    let mut plan = nodes(&size, random);
    links(&mut plan, random);
    flags(&mut plan, random);
    plan
}

/// Nodes with formulas and owners; one shape in four is a tower, one a family.
fn nodes(size: &Size, random: &mut Random) -> Plan {
    let node_room = if random.chance(20) { size.nodes } else { 1 + random.below(size.nodes) };
    let count = if random.chance(40) { node_room } else { random.below(node_room + 1) };
    let (tower, family) = (random.chance(25), random.chance(25));
    let mut nodes: Vec<Node> = Vec::new();
    let mut used = 0;
    for _ in 0..count {
        let kind = match random.below(100) {
            0..25 => SIGNAL,
            25..55 => COMPUTED,
            55..85 => EFFECT,
            _ => SCOPE,
        };
        let gone = kind >= EFFECT && random.chance(15);
        let owner = (kind >= EFFECT).then(|| owner(&nodes, gone, family, random)).flatten();
        let mut cells = Vec::new();
        if matches!(kind, COMPUTED | EFFECT) {
            // Gaps between formulas and formulas that share cells do no harm.
            used += usize::from(random.chance(10));
            let left = size.cells.saturating_sub(used);
            cells = formula(&nodes, kind, left, tower, random);
            if cells.is_empty() {
                break;
            }
        }
        let start = used;
        used += cells.len();
        let mut node = Node { kind, gone, owner, flags: 0, level: 0, cells, start, reads: 0 };
        node.reads = node.names().len() as u64;
        node.level = level(&nodes, &node);
        nodes.push(node);
    }
    let count = nodes.len();
    let spare = if random.chance(50) { 0 } else { random.below(4) };
    let cell_room = (used + spare).clamp(1, 8_192);
    let lists = vec![Vec::new(); count];
    Plan {
        nodes,
        links: Vec::new(),
        deps: lists.clone(),
        subs: lists,
        free: Vec::new(),
        queue: Vec::new(),
        depth: 0,
        used,
        node_room,
        slot_room: 0,
        cell_room,
    }
}

/// Height, or owner depth.
pub fn level(nodes: &[Node], node: &Node) -> u64 {
    match node.kind {
        SIGNAL => 0,
        COMPUTED => 1 + node.names().iter().map(|&name| nodes[name].level).max().unwrap_or(0),
        _ => 1 + node.owner.map_or(0, |owner| nodes[owner].level),
    }
}

/// A live node's owner is live; a gone one's may be gone.
fn owner(nodes: &[Node], gone: bool, family: bool, random: &mut Random) -> Option<usize> {
    let fits = |node: &Node| node.owns() && node.level < 16 && (gone || !node.gone);
    let owners: Vec<usize> = (0..nodes.len()).filter(|&number| fits(&nodes[number])).collect();
    let last = owners.iter().copied().max_by_key(|&number| nodes[number].level);
    match random.below(100) {
        0..70 if family => last,
        0..40 => random.any_of(&owners),
        _ => None,
    }
}

/// No cells if there is no room for any.
fn formula(
    nodes: &[Node],
    kind: u64,
    left: usize,
    tower: bool,
    random: &mut Random,
) -> Vec<[i64; CELL]> {
    let fits = |node: &Node| node.can_be_read() && (kind != COMPUTED || node.level < 64);
    let sources: Vec<usize> = (0..nodes.len()).filter(|&number| fits(&nodes[number])).collect();
    let highest = sources.iter().copied().max_by_key(|&number| nodes[number].level);
    let most = match random.below(20) {
        0 => 64,
        1..6 => 12,
        _ => 5,
    };
    let mut leaf = |random: &mut Random| {
        let name = if tower && random.chance(60) { highest } else { random.any_of(&sources) };
        match name {
            Some(name) if random.chance(85) => [2, name as i64],
            _ => [1, random.word() as i64],
        }
    };
    grown(most.min(left), random, &mut leaf)
}

/// An expression of at most that many cells, grown at its leaves while there is room.
fn grown(
    most: usize,
    random: &mut Random,
    leaf: &mut impl FnMut(&mut Random) -> [i64; CELL],
) -> Vec<[i64; CELL]> {
    if most == 0 {
        return Vec::new();
    }
    let spine = random.chance(10);
    let mut cells = vec![leaf(random)];
    for _ in 0..most {
        let at = if spine { cells.len() - 1 } else { random.below(cells.len()) };
        let arguments = if random.chance(25) { 3 } else { 2 };
        if cells[at][0] > 2 || cells.len() + arguments > most || random.chance(15) {
            continue;
        }
        let code = if arguments == 3 { 8 } else { 3 + random.below(5) as i64 };
        let mut larger = cells.clone();
        larger.splice(
            at..at + 1,
            [[code, 0]].into_iter().chain((0..arguments).map(|_| leaf(random))),
        );
        if nesting(&larger) <= 16 {
            cells = larger;
        }
    }
    cells
}

pub fn nesting(cells: &[[i64; CELL]]) -> usize {
    let mut open: Vec<usize> = Vec::new();
    let mut most = 0;
    for cell in cells {
        most = most.max(open.len() + 1);
        open.push(match cell[0] {
            1 | 2 => 0,
            8 => 3,
            _ => 2,
        });
        while open.last() == Some(&0) {
            open.pop();
            if let Some(awaited) = open.last_mut() {
                *awaited -= 1;
            }
        }
    }
    most
}

fn links(plan: &mut Plan, random: &mut Random) {
    let spare = if random.chance(40) { 0 } else { random.below(6) };
    plan.slot_room = (plan.reserve() + spare).clamp(1, 8_192);
    plan.free = (0..plan.slot_room).collect();
    random.shuffle(&mut plan.free);
    // Computeds never evaluated have no links.
    let never: Vec<bool> =
        plan.nodes.iter().map(|node| node.kind == COMPUTED && random.chance(25)).collect();
    for number in 0..plan.nodes.len() {
        let node = plan.nodes[number].clone();
        if node.gone || never[number] {
            continue;
        }
        if let Some(owner) = node.owner {
            plan.join(number, owner, random);
        }
        let names = node.names();
        let sources: Vec<usize> = names.iter().copied().filter(|&name| !never[name]).collect();
        if sources.is_empty() {
            continue;
        }
        let wanted = if random.chance(50) { names.len() } else { random.below(names.len() + 1) };
        for _ in 0..wanted {
            let name = random.one_of(&sources);
            plan.join(name, number, random);
        }
    }
}

fn flags(plan: &mut Plan, random: &mut Random) {
    plan.depth = match random.below(10) {
        0..3 => 0,
        3 => 64,
        _ => 1 + random.below(64) as u64,
    };
    for number in 0..plan.nodes.len() {
        let flags = allowed(plan, number);
        plan.nodes[number].flags = random.one_of(&flags);
    }
    let open = plan.depth > 0;
    plan.queue = plan.numbers(|_, node| node.kind == EFFECT && !node.gone && node.flags != 2);
    for gone in plan.numbers(|_, node| node.kind == EFFECT && node.gone && node.flags == 0) {
        if open && random.chance(50) {
            plan.queue.push(gone);
        }
    }
    random.shuffle(&mut plan.queue);
}

/// The flags that a node may have, given its links and the depth.
pub fn allowed(plan: &Plan, number: usize) -> Vec<u64> {
    let node = &plan.nodes[number];
    let (depends, open) = (!plan.deps[number].is_empty(), plan.depth > 0);
    match node.kind {
        SIGNAL => vec![1, 17],
        COMPUTED if depends => vec![1, 33, 49],
        COMPUTED if plan.subs[number].is_empty() => vec![0, 1, 17],
        COMPUTED => vec![1, 17],
        EFFECT if node.gone => vec![0, 2],
        EFFECT if !open => vec![2],
        EFFECT if plan.read_links(number) > 0 => vec![2, 0, 32, 48],
        EFFECT => vec![2, 0],
        _ => vec![0],
    }
}
