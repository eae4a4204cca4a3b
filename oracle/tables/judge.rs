//! A second well-formed test, written from the five bullets of document 01, "Flags and tables at
//! rest", and from the word layout. It shares no definition with the port: it makes the lists first
//! and then asks each bullet of them.

use super::layout::*;

/// The rule that is broken.
pub type Broken = &'static str;
type Rule = Result<(), Broken>;

const MOST_NODES: usize = 1_024;
const MOST_SLOTS: usize = 8_192;
const MOST_CELLS: usize = 8_192;
const MOST_FORMULA: usize = 64;
const MOST_NESTING: usize = 16;
const MOST_HEIGHT: u64 = 64;
const MOST_OWNER_DEPTH: u64 = 16;
const MOST_DEPTH: u64 = 64;

fn must(holds: bool, rule: Broken) -> Rule {
    if holds { Ok(()) } else { Err(rule) }
}

pub fn judge(tables: &Tables) -> Rule {
    let room = Room::of(tables)?;
    let nodes = nodes(tables, &room)?;
    let lists = lists(tables, &room, nodes.len())?;
    for number in 0..nodes.len() {
        dependencies(&nodes, &lists, number)?;
        subscribers(&nodes, &lists, number)?;
        read_links(&nodes, &lists, number)?;
    }
    levels(&nodes)?;
    must(reserve(&nodes) <= room.slots, "the reserve keeps its limit")?;
    let queue = queue(tables, nodes.len())?;
    for number in 0..nodes.len() {
        flags(&nodes, &lists, &queue, number)?;
        queued(&nodes, &queue, number)?;
    }
    let depth = tables.nodes[DEPTH];
    must(depth <= MOST_DEPTH, "depth is at most 64")?;
    must(depth > 0 || queue.is_empty(), "at depth 0 the queue is empty")
}

// ---- what the layout says

pub struct Room {
    pub nodes: usize,
    pub slots: usize,
    pub cells: usize,
}

impl Room {
    pub fn of(tables: &Tables) -> Result<Room, Broken> {
        let rows = |words: usize, wide: usize, most: usize| {
            let whole = words.is_multiple_of(wide).then_some(words / wide)?;
            (1..=most).contains(&whole).then_some(whole)
        };
        let after_header =
            |words: usize, wide: usize, most: usize| rows(words.checked_sub(wide)?, wide, most);
        let carried = || {
            let nodes = after_header(tables.nodes.len(), NODE, MOST_NODES)?;
            let slots = after_header(tables.links.len(), LINK, MOST_SLOTS)?;
            let cells = rows(tables.cells.len(), CELL, MOST_CELLS)?;
            (tables.values.len() == VALUES * nodes).then_some(Room { nodes, slots, cells })
        };
        carried().ok_or("the lengths carry capacities")
    }
}

#[derive(Clone, Copy, PartialEq, Eq)]
enum Kind {
    Signal,
    Computed,
    Effect,
    Scope,
}
use Kind::*;

struct Node {
    kind: Kind,
    gone: bool,
    owner: Option<usize>,
    flags: u64,
    /// Height, or owner depth, as the row says.
    level: u64,
    /// What the read cells name, one entry a cell.
    names: Vec<usize>,
}

impl Node {
    fn can_be_read(&self) -> bool {
        matches!(self.kind, Signal | Computed)
    }

    fn live_effect(&self) -> bool {
        self.kind == Effect && !self.gone
    }
}

fn nodes(tables: &Tables, room: &Room) -> Result<Vec<Node>, Broken> {
    let number = |word: u64, most: usize| usize::try_from(word).ok().filter(|&n| n <= most);
    let count = number(tables.nodes[COUNT], room.nodes).ok_or("no more nodes than rows")?;
    let used =
        number(tables.nodes[USED], room.cells).ok_or("no more cells in use than there are")?;
    let mut nodes: Vec<Node> = Vec::new();
    for n in 0..count {
        let kind = match tables.node(n, KIND) {
            SIGNAL => Signal,
            COMPUTED => Computed,
            EFFECT => Effect,
            SCOPE => Scope,
            _ => return Err("a node is of one of four kinds"),
        };
        let gone = match tables.node(n, GONE) {
            0 => false,
            1 => true,
            _ => return Err("a gone mark is 0 or 1"),
        };
        let owner = match tables.node(n, OWNER) {
            0 => None,
            word if word <= n as u64 => Some(word as usize - 1),
            _ => return Err("an owner is of lower number"),
        };
        let owned_or_gone = gone || owner.is_some();
        must(
            matches!(kind, Effect | Scope) || !owned_or_gone,
            "signals and computeds are not owned, and never gone",
        )?;
        let names = match kind {
            Computed | Effect => {
                let start = number(tables.node(n, START), used)
                    .ok_or("formulas lie in the cells in use")?;
                let cells = number(tables.node(n, CELLS), used - start)
                    .ok_or("formulas lie in the cells in use")?;
                let names = formula(&tables.cells[CELL * start..CELL * (start + cells)])?;
                must(tables.node(n, READS) == names.len() as u64, "the read cells are counted")?;
                names.iter().map(|&name| named(name, &nodes)).collect::<Result<_, _>>()?
            }
            Signal | Scope => Vec::new(),
        };
        let (flags, level) = (tables.node(n, FLAGS), tables.node(n, LEVEL));
        nodes.push(Node { kind, gone, owner, flags, level, names });
    }
    Ok(nodes)
}

/// Third bullet: read cells name what the node may depend on, which by the second is lower signals
/// and computeds.
fn named(name: i64, lower: &[Node]) -> Result<usize, Broken> {
    let number =
        usize::try_from(name).ok().filter(|&n| lower.get(n).is_some_and(Node::can_be_read));
    number.ok_or("read cells name lower signals and computeds")
}

/// One expression in prefix order, 1 to 64 cells, nesting at most 16; what its read cells name.
fn formula(words: &[i64]) -> Result<Vec<i64>, Broken> {
    must((CELL..=CELL * MOST_FORMULA).contains(&words.len()), "a formula has 1 to 64 cells")?;
    let mut names = Vec::new();
    // For each expression begun and not ended, how many arguments are still to come.
    let mut open: Vec<usize> = Vec::new();
    let mut ended = false;
    for cell in words.chunks(CELL) {
        must(!ended, "a formula is exactly one expression")?;
        must(open.len() < MOST_NESTING, "nesting is at most 16")?;
        let arguments = match (cell[0], cell[1]) {
            (1, _) => 0,
            (2, name) => {
                names.push(name);
                0
            }
            (3..=7, 0) => 2,
            (8, 0) => 3,
            _ => return Err("a cell is one of eight, with operand 0 from code 3 on"),
        };
        open.push(arguments);
        while open.last() == Some(&0) {
            open.pop();
            match open.last_mut() {
                Some(awaited) => *awaited -= 1,
                None => ended = true,
            }
        }
    }
    must(ended, "a formula is exactly one expression")?;
    Ok(names)
}

// ---- first bullet

/// Of each node, the other ends of its links in list order.
struct Lists {
    deps: Vec<Vec<usize>>,
    subs: Vec<Vec<usize>>,
}

struct Fields {
    head: usize,
    tail: usize,
    own: usize,
    other: usize,
    prev: usize,
    next: usize,
}

const DEPENDENCIES: Fields =
    Fields { head: DEPS, tail: DEPS_TAIL, own: SUB, other: DEP, prev: PREV_DEP, next: NEXT_DEP };
const SUBSCRIBERS: Fields =
    Fields { head: SUBS, tail: SUBS_TAIL, own: DEP, other: SUB, prev: PREV_SUB, next: NEXT_SUB };

fn lists(tables: &Tables, room: &Room, count: usize) -> Result<Lists, Broken> {
    let live: Vec<bool> = (0..room.slots).map(|slot| tables.link(slot, LIVE) != 0).collect();
    let mut times = vec![0; room.slots];
    for slot in walk(tables, room, tables.links[FREE], NEXT_DEP)? {
        times[slot] += 1;
    }
    let once = (0..room.slots).all(|slot| times[slot] == usize::from(!live[slot]));
    must(once, "each free slot is once on the free list, and no live one")?;
    let deps = side(tables, room, count, &live, &DEPENDENCIES)?;
    let subs = side(tables, room, count, &live, &SUBSCRIBERS)?;
    Ok(Lists { deps, subs })
}

fn side(
    tables: &Tables,
    room: &Room,
    count: usize,
    live: &[bool],
    fields: &Fields,
) -> Result<Vec<Vec<usize>>, Broken> {
    let mut times = vec![0; room.slots];
    let mut ends = Vec::new();
    for n in 0..count {
        let list = walk(tables, room, tables.node(n, fields.head), fields.next)?;
        for (place, &slot) in list.iter().enumerate() {
            times[slot] += 1;
            let before = place.checked_sub(1).map(|earlier| list[earlier]);
            must(live[slot], "lists hold live slots")?;
            must(tables.link(slot, fields.own) == n as u64, "a list holds the links of its node")?;
            must(tables.link(slot, fields.prev) == word(before), "neighbours agree")?;
        }
        must(tables.node(n, fields.tail) == word(list.last().copied()), "tails agree")?;
        ends.push(list.iter().map(|&slot| tables.link(slot, fields.other) as usize).collect());
    }
    must(
        (0..room.slots).all(|slot| times[slot] == usize::from(live[slot])),
        "each live slot is once in each of its two lists",
    )?;
    Ok(ends)
}

/// The slots from a head word on.
fn walk(tables: &Tables, room: &Room, head: u64, next: usize) -> Result<Vec<usize>, Broken> {
    let mut list = Vec::new();
    let mut at = head;
    while at != 0 {
        must(at <= room.slots as u64, "lists name slots that are there")?;
        must(list.len() < room.slots, "lists end")?;
        let slot = at as usize - 1;
        list.push(slot);
        at = tables.link(slot, next);
    }
    Ok(list)
}

// ---- second bullet

fn dependencies(nodes: &[Node], lists: &Lists, number: usize) -> Rule {
    let node = &nodes[number];
    for &on in &lists.deps[number] {
        let lower_source = on < number && nodes[on].can_be_read();
        let owned = nodes[on].owner == Some(number);
        let may = match node.kind {
            Signal => false,
            Computed => lower_source,
            Effect => lower_source || owned,
            Scope => owned,
        };
        must(may, "a node depends on what it may depend on")?;
    }
    must(!node.gone || lists.deps[number].is_empty(), "gone nodes have no links")
}

fn subscribers(nodes: &[Node], lists: &Lists, number: usize) -> Rule {
    let (node, subs) = (&nodes[number], &lists.subs[number]);
    match (node.kind, node.gone, node.owner) {
        (Signal | Computed, _, _) => Ok(()),
        (_, false, Some(owner)) => {
            must(*subs == [owner], "a live owned node has one subscriber link, to its owner")
        }
        _ => must(subs.is_empty(), "an unowned or gone effect or scope has no subscriber link"),
    }
}

// ---- third bullet; the cells themselves were asked when they were read

/// The ends of a node's links to signals and computeds.
fn reads(nodes: &[Node], lists: &Lists, number: usize) -> impl Iterator<Item = usize> {
    lists.deps[number].iter().copied().filter(|&on| nodes[on].can_be_read())
}

fn read_links(nodes: &[Node], lists: &Lists, number: usize) -> Rule {
    let names = &nodes[number].names;
    must(reads(nodes, lists, number).count() <= names.len(), "no more read links than read cells")?;
    must(
        reads(nodes, lists, number).all(|on| names.contains(&on)),
        "read links go to nodes that the cells name",
    )
}

fn levels(nodes: &[Node]) -> Rule {
    for node in nodes {
        let (level, most) = match node.kind {
            Signal => (0, 0),
            Computed => (
                1 + node.names.iter().map(|&name| nodes[name].level).max().unwrap_or(0),
                MOST_HEIGHT,
            ),
            Effect | Scope => {
                (1 + node.owner.map_or(0, |owner| nodes[owner].level), MOST_OWNER_DEPTH)
            }
        };
        must(node.level == level, "heights and depths are as they are counted")?;
        must(level <= most, "heights and depths keep the limits")?;
    }
    Ok(())
}

fn reserve(nodes: &[Node]) -> usize {
    let each = nodes.iter().filter(|node| !node.gone);
    each.map(|node| 2 * node.names.len() + usize::from(node.owner.is_some())).sum()
}

// ---- fourth bullet

fn flags(nodes: &[Node], lists: &Lists, queue: &[usize], number: usize) -> Rule {
    let node = &nodes[number];
    let depends = !lists.deps[number].is_empty();
    let fit = match (node.kind, node.flags) {
        (Signal, 1 | 17) => true,
        (Computed, 0) => !depends && lists.subs[number].is_empty(),
        (Computed, 1) => true,
        (Computed, 17) => !depends,
        (Computed, 33 | 49) => depends,
        (Effect, 0 | 2) if node.gone => true,
        (Effect, 2) => !queue.contains(&number),
        (Effect, 0) => queue.contains(&number),
        (Effect, 32 | 48) => queue.contains(&number) && reads(nodes, lists, number).count() > 0,
        (Scope, 0) => true,
        _ => false,
    };
    must(fit, "flags are as the kind and the links ask")
}

// ---- fifth bullet

fn queue(tables: &Tables, count: usize) -> Result<Vec<usize>, Broken> {
    let length = tables.nodes[QUEUE];
    must(length <= count as u64, "the queue holds nothing twice")?;
    let entries = (0..length as usize).map(|place| tables.node(place, QUEUE));
    entries
        .map(|e| if e < count as u64 { Ok(e as usize) } else { Err("the queue holds effects") })
        .collect()
}

fn queued(nodes: &[Node], queue: &[usize], number: usize) -> Rule {
    const WATCHING: u64 = 2;
    let node = &nodes[number];
    let times = queue.iter().filter(|&&entry| entry == number).count();
    let fits = match times {
        0 => !(node.live_effect() && node.flags & WATCHING == 0),
        1 if node.gone => node.kind == Effect && node.flags == 0,
        1 => node.live_effect() && node.flags & WATCHING == 0,
        _ => false,
    };
    must(
        fits,
        "the queue holds each live effect that does not watch, and gone ones with flags 0, once",
    )
}
