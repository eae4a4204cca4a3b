//! One rule of document 01 broken in a plan, all else kept: the tables are just not well formed.
//! Each is meant for one clause, so that no clause is left out for want of a table that breaks it
//! alone.

use super::layout::*;
use super::make::{level, nesting};
use super::plan::{Node, Plan};
use super::random::Random;

/// Spoils the plan, or says that it has nothing to spoil this way.
type Spoil = fn(&mut Plan, &mut Random) -> bool;

pub const WAYS: [(&str, Spoil); 38] = [
    // First bullet: slots and lists.
    ("free slot on no list", |plan, _| plan.free.pop().is_some()),
    ("free slot twice on the list", free_twice),
    ("live slot on the free list", live_and_free),
    ("live slot in no dependency list", |plan, random| drop_from(plan, random, true)),
    ("live slot in no subscriber list", |plan, random| drop_from(plan, random, false)),
    ("live slot twice in a list", twice_in_a_list),
    ("live slot in another node's list", in_another_list),
    // Second bullet: what depends on what.
    ("read link to no lower node", link_upwards),
    ("read link of a signal or scope", link_of_a_wrong_kind),
    ("link to an effect or scope of another owner", link_to_a_stranger),
    ("owned node without its link", owned_unlinked),
    ("owned node with two links", owned_twice),
    ("owned node linked to another", owned_elsewhere),
    ("gone node with a read link", gone_that_reads),
    ("gone node with its owner's link", gone_and_linked),
    ("gone owner of a live node", gone_owner),
    ("owner that is signal or computed", odd_owner),
    ("owner of no lower number", later_owner),
    ("gone signal or computed", gone_source),
    // Third bullet: formulas and limits.
    ("read link that no cell names", link_to_an_unnamed),
    ("one read link too many", one_link_too_many),
    ("read cell that names no lower source", name_of_a_wrong_node),
    ("broken cell", broken_cell),
    ("cell too many or too few", cell_too_many_or_few),
    ("formula of 65 cells", formula_too_large),
    ("nesting of 17", nested_too_deep),
    ("read cells miscounted", |plan, random| {
        on_any(plan, random, |node| !node.cells.is_empty(), |node| node.reads += 1)
    }),
    ("formula past the cells in use", past_the_cells_in_use),
    ("height or depth miscounted", |plan, random| {
        on_any(plan, random, |_| true, |node| node.level += 1)
    }),
    ("height of 65", too_high),
    ("owner depth of 17", too_deep),
    ("reserve one over the slots", over_the_reserve),
    // Fourth bullet: flags.
    ("flags that do not fit", wrong_flags),
    // Fifth bullet: queue and depth.
    ("waiting effect not queued", unqueued),
    ("queue entry twice", queued_twice),
    ("queue entry that does not wait", queued_wrongly),
    ("queue at depth 0", |plan, _| {
        std::mem::replace(&mut plan.depth, 0) > 0 && !plan.queue.is_empty()
    }),
    ("depth of 65 or more", |plan, random| {
        plan.depth = random.one_of(&[65, 66, 1 << 32, u64::MAX]);
        true
    }),
];

fn on_any(
    plan: &mut Plan,
    random: &mut Random,
    fits: fn(&Node) -> bool,
    change: fn(&mut Node),
) -> bool {
    let numbers = plan.numbers(|_, node| fits(node));
    random.any_of(&numbers).is_some_and(|number| {
        change(&mut plan.nodes[number]);
        true
    })
}

// ---- first bullet

fn free_twice(plan: &mut Plan, random: &mut Random) -> bool {
    let Some(slot) = random.any_of(&plan.free) else {
        return false;
    };
    plan.free.push(slot);
    true
}

fn live_and_free(plan: &mut Plan, random: &mut Random) -> bool {
    let live = plan.live();
    let Some(place) = random.any_of(&live) else {
        return false;
    };
    // Last on the free list, which then goes on where the dependency list does.
    plan.free.push(plan.links[place].slot);
    true
}

fn drop_from(plan: &mut Plan, random: &mut Random, dependencies: bool) -> bool {
    let live = plan.live();
    let Some(place) = random.any_of(&live) else {
        return false;
    };
    let (dep, sub) = (plan.links[place].dep, plan.links[place].sub);
    match dependencies {
        true => plan.deps[sub].retain(|&other| other != place),
        false => plan.subs[dep].retain(|&other| other != place),
    }
    true
}

fn twice_in_a_list(plan: &mut Plan, random: &mut Random) -> bool {
    let live = plan.live();
    let Some(place) = random.any_of(&live) else {
        return false;
    };
    let sub = plan.links[place].sub;
    plan.deps[sub].push(place);
    true
}

fn in_another_list(plan: &mut Plan, random: &mut Random) -> bool {
    let live = plan.live();
    let Some(place) = random.any_of(&live) else {
        return false;
    };
    let sub = plan.links[place].sub;
    let others = plan.numbers(|number, _| number != sub);
    let Some(other) = random.any_of(&others) else {
        return false;
    };
    plan.deps[sub].retain(|&other| other != place);
    plan.deps[other].push(place);
    true
}

// ---- second bullet

/// A read link in the place of another, so that their number stays; the cells name it.
fn link_upwards(plan: &mut Plan, random: &mut Random) -> bool {
    let readers = plan
        .numbers(|number, node| !node.gone && node.kind == COMPUTED && plan.read_links(number) > 0);
    let Some(reader) = random.any_of(&readers) else {
        return false;
    };
    let higher =
        plan.numbers(|number, node| number >= reader && node.can_be_read() && node.flags != 0);
    let Some(source) = random.any_of(&higher) else {
        return false;
    };
    let place = random.one_of(&plan.deps[reader].clone());
    plan.part(place);
    plan.join(source, reader, random)
}

fn link_of_a_wrong_kind(plan: &mut Plan, random: &mut Random) -> bool {
    let readers = plan.numbers(|_, node| !node.gone && matches!(node.kind, SIGNAL | SCOPE));
    let Some(reader) = random.any_of(&readers) else {
        return false;
    };
    let lower =
        plan.numbers(|number, node| number < reader && node.can_be_read() && node.flags != 0);
    random.any_of(&lower).is_some_and(|source| plan.join(source, reader, random))
}

fn link_to_a_stranger(plan: &mut Plan, random: &mut Random) -> bool {
    let owners = plan.numbers(|_, node| node.owns() && !node.gone);
    let Some(owner) = random.any_of(&owners) else {
        return false;
    };
    let strangers = plan.numbers(|_, node| node.owns() && !node.gone && node.owner.is_none());
    random.any_of(&strangers).is_some_and(|stranger| plan.join(stranger, owner, random))
}

/// A live owned node and its link.
fn owned(plan: &Plan, random: &mut Random) -> Option<(usize, usize)> {
    let owned = plan.numbers(|number, node| node.owner.is_some() && !plan.subs[number].is_empty());
    let number = random.any_of(&owned)?;
    Some((number, plan.subs[number][0]))
}

fn owned_unlinked(plan: &mut Plan, random: &mut Random) -> bool {
    owned(plan, random).is_some_and(|(_, place)| {
        plan.part(place);
        true
    })
}

fn owned_twice(plan: &mut Plan, random: &mut Random) -> bool {
    owned(plan, random)
        .is_some_and(|(number, place)| plan.join(number, plan.links[place].sub, random))
}

fn owned_elsewhere(plan: &mut Plan, random: &mut Random) -> bool {
    let Some((number, place)) = owned(plan, random) else {
        return false;
    };
    let owner = plan.links[place].sub;
    let others =
        plan.numbers(|other, node| node.owns() && !node.gone && other != owner && other < number);
    random.any_of(&others).is_some_and(|other| {
        plan.part(place);
        plan.join(number, other, random)
    })
}

fn gone_that_reads(plan: &mut Plan, random: &mut Random) -> bool {
    let gone = plan.numbers(|_, node| node.gone && node.kind == EFFECT && !node.names().is_empty());
    let Some(number) = random.any_of(&gone) else {
        return false;
    };
    let names = plan.nodes[number].names();
    let linkable: Vec<usize> =
        names.into_iter().filter(|&name| plan.nodes[name].flags != 0).collect();
    random.any_of(&linkable).is_some_and(|name| plan.join(name, number, random))
}

fn gone_and_linked(plan: &mut Plan, random: &mut Random) -> bool {
    let fits = |node: &Node| node.gone && node.owner.is_some_and(|owner| !plan.nodes[owner].gone);
    let gone = plan.numbers(|_, node| fits(node));
    random.any_of(&gone).is_some_and(|number| {
        let owner = plan.nodes[number].owner.expect("it has one");
        plan.join(number, owner, random)
    })
}

/// The owner is made gone, its read links and flags with it; what it owns stays as it was.
fn gone_owner(plan: &mut Plan, random: &mut Random) -> bool {
    let Some((_, place)) = owned(plan, random) else {
        return false;
    };
    let owner = plan.links[place].sub;
    if plan.nodes[owner].owner.is_some() {
        return false;
    }
    let reads: Vec<usize> = plan.deps[owner]
        .iter()
        .copied()
        .filter(|&at| plan.nodes[plan.links[at].dep].can_be_read())
        .collect();
    reads.into_iter().for_each(|at| plan.part(at));
    plan.queue.retain(|&entry| entry != owner);
    (plan.nodes[owner].gone, plan.nodes[owner].flags) = (true, 0);
    true
}

fn odd_owner(plan: &mut Plan, random: &mut Random) -> bool {
    let Some((number, place)) = owned(plan, random) else {
        return false;
    };
    let sources = plan.numbers(|other, node| {
        other < number && node.can_be_read() && node.flags == 1 && node.level < 16
    });
    random.any_of(&sources).is_some_and(|source| {
        plan.part(place);
        plan.nodes[number].owner = Some(source);
        relevel(plan);
        plan.join(number, source, random)
    })
}

fn later_owner(plan: &mut Plan, random: &mut Random) -> bool {
    let childless = plan.numbers(|_, node| node.owns() && !node.gone);
    let childless: Vec<usize> = childless
        .into_iter()
        .filter(|&n| plan.nodes.iter().all(|node| node.owner != Some(n)))
        .collect();
    let Some(number) = random.any_of(&childless) else {
        return false;
    };
    let later =
        plan.numbers(|other, node| other >= number && node.owns() && !node.gone && node.level < 16);
    random.any_of(&later).is_some_and(|owner| {
        plan.subs[number].clone().into_iter().for_each(|place| plan.part(place));
        plan.nodes[number].owner = Some(owner);
        plan.nodes[number].level = 1 + plan.nodes[owner].level;
        plan.join(number, owner, random)
    })
}

fn gone_source(plan: &mut Plan, random: &mut Random) -> bool {
    let sources = plan.numbers(|n, node| {
        node.can_be_read() && plan.deps[n].is_empty() && plan.subs[n].is_empty()
    });
    random.any_of(&sources).is_some_and(|number| {
        plan.nodes[number].gone = true;
        true
    })
}

// ---- third bullet

fn link_to_an_unnamed(plan: &mut Plan, random: &mut Random) -> bool {
    let readers = plan.numbers(|number, node| {
        plan.read_links(number) < node.names().len() && !plan.deps[number].is_empty()
    });
    let Some(reader) = random.any_of(&readers) else {
        return false;
    };
    let names = plan.nodes[reader].names();
    let unnamed = plan.numbers(|n, node| {
        n < reader && node.can_be_read() && node.flags != 0 && !names.contains(&n)
    });
    random.any_of(&unnamed).is_some_and(|source| plan.join(source, reader, random))
}

fn one_link_too_many(plan: &mut Plan, random: &mut Random) -> bool {
    let readers = plan.numbers(|number, _| plan.read_links(number) > 0);
    let Some(reader) = random.any_of(&readers) else {
        return false;
    };
    let names = plan.nodes[reader].names();
    let linkable: Vec<usize> =
        names.iter().copied().filter(|&name| plan.nodes[name].flags != 0).collect();
    while plan.read_links(reader) <= names.len() {
        let name = random.one_of(&linkable);
        if !plan.join(name, reader, random) {
            return false;
        }
    }
    true
}

/// A node with a formula that no lower node's level hangs on, and the place of one of its cells.
fn with_a_cell(
    plan: &Plan,
    random: &mut Random,
    fits: fn(&[i64; CELL]) -> bool,
) -> Option<(usize, usize)> {
    let numbers = plan.numbers(|_, node| node.cells.iter().any(fits));
    let number = random.any_of(&numbers)?;
    let cells = &plan.nodes[number].cells;
    let places: Vec<usize> = (0..cells.len()).filter(|&place| fits(&cells[place])).collect();
    Some((number, random.one_of(&places)))
}

fn name_of_a_wrong_node(plan: &mut Plan, random: &mut Random) -> bool {
    let Some((number, place)) = with_a_cell(plan, random, |cell| cell[0] == 2) else {
        return false;
    };
    let wrong = plan.numbers(|n, node| n >= number || !node.can_be_read());
    let strange = [plan.nodes.len() as i64, -1, i64::MIN, i64::MAX];
    let any = random.one_of(&strange);
    let name = random.any_of(&wrong).filter(|_| random.chance(70)).map_or(any, |n| n as i64);
    plan.nodes[number].cells[place][1] = name;
    true
}

fn broken_cell(plan: &mut Plan, random: &mut Random) -> bool {
    let Some((number, place)) = with_a_cell(plan, random, |_| true) else {
        return false;
    };
    let cell = &mut plan.nodes[number].cells[place];
    match random.chance(50) {
        true if cell[0] > 2 => cell[1] = random.one_of(&[1, -1, i64::MIN]),
        _ => cell[0] = random.one_of(&[0, 9, -1, i64::MAX, i64::MIN]),
    }
    true
}

fn cell_too_many_or_few(plan: &mut Plan, random: &mut Random) -> bool {
    match random.chance(50) {
        true => with_the_last(plan, |cells| {
            cells.push([1, 7]);
            cells.len() <= 64
        }),
        false => with_the_last(plan, |cells| {
            cells.len() > 1 && cells.pop().is_some_and(|cell| cell[0] == 1)
        }),
    }
}

/// Makes room for the last formula, whatever its length now is.
fn settle_last(plan: &mut Plan, last: usize) {
    let node = &mut plan.nodes[last];
    node.reads = node.names().len() as u64;
    plan.used = plan.used.max(node.start + node.cells.len());
    plan.cell_room = plan.cell_room.max(plan.used);
}

/// The last formula's leaves in a flat tree of 33: 65 cells, little nesting.
fn formula_too_large(plan: &mut Plan, _: &mut Random) -> bool {
    with_the_last(plan, |cells| {
        let mut parts: Vec<Vec<[i64; CELL]>> =
            cells.iter().filter(|cell| cell[0] <= 2).map(|cell| vec![*cell]).collect();
        parts.resize(33.max(parts.len()), vec![[1, 0]]);
        while parts.len() > 1 {
            let joined = parts.chunks(2).map(|pair| match pair {
                [first, second] => [vec![[3, 0]], first.clone(), second.clone()].concat(),
                rest => rest.concat(),
            });
            parts = joined.collect();
        }
        *cells = parts.remove(0);
        cells.len() == 65
    })
}

/// The last formula as an argument of sums until it is too deep.
fn nested_too_deep(plan: &mut Plan, _: &mut Random) -> bool {
    with_the_last(plan, |cells| {
        while nesting(cells) < 17 {
            cells.splice(0..0, [[3, 0], [1, 0]]);
        }
        cells.len() <= 64
    })
}

fn with_the_last(plan: &mut Plan, change: fn(&mut Vec<[i64; CELL]>) -> bool) -> bool {
    let Some(last) = plan.nodes.iter().rposition(|node| !node.cells.is_empty()) else {
        return false;
    };
    let changed = change(&mut plan.nodes[last].cells);
    settle_last(plan, last);
    changed && plan.cell_room <= 8_192
}

fn past_the_cells_in_use(plan: &mut Plan, _: &mut Random) -> bool {
    let Some(last) = plan.nodes.iter().rposition(|node| !node.cells.is_empty()) else {
        return false;
    };
    plan.used = plan.nodes[last].start + plan.nodes[last].cells.len() - 1;
    true
}

/// The levels of all nodes, counted anew.
fn relevel(plan: &mut Plan) {
    for number in 0..plan.nodes.len() {
        plan.nodes[number].level = level(&plan.nodes, &plan.nodes[number]);
    }
}

/// A node that nothing names and that has no links.
fn lone(
    kind: u64,
    flags: u64,
    owner: Option<usize>,
    cells: Vec<[i64; CELL]>,
    start: usize,
) -> Node {
    let reads = cells.iter().filter(|cell| cell[0] == 2).count() as u64;
    Node { kind, gone: false, owner, flags, level: 0, cells, start, reads }
}

fn add(plan: &mut Plan, node: Node) {
    plan.used += node.cells.len();
    plan.nodes.push(node);
    plan.deps.push(Vec::new());
    plan.subs.push(Vec::new());
    plan.node_room = plan.node_room.max(plan.nodes.len());
    plan.cell_room = plan.cell_room.max(plan.used);
    let missing = plan.reserve().saturating_sub(plan.slot_room);
    plan.free.extend(plan.slot_room..plan.slot_room + missing);
    plan.slot_room += missing;
    relevel(plan);
}

fn fits_most(plan: &Plan) -> bool {
    plan.node_room <= 1_024 && plan.slot_room <= 8_192 && plan.cell_room <= 8_192
}

/// Computeds on top of each other, never evaluated, until one is too high.
fn too_high(plan: &mut Plan, _: &mut Random) -> bool {
    let sources = plan.numbers(|_, node| node.can_be_read());
    let mut below = sources.into_iter().max_by_key(|&number| plan.nodes[number].level);
    while below.is_none_or(|number| plan.nodes[number].level < 65) {
        let cell = below.map_or([1, 0], |number| [2, number as i64]);
        let start = plan.used;
        below = Some(plan.nodes.len());
        add(plan, lone(COMPUTED, 0, None, vec![cell], start));
    }
    fits_most(plan)
}

/// Scopes that own each other, until one is too deep.
fn too_deep(plan: &mut Plan, random: &mut Random) -> bool {
    let owners = plan.numbers(|_, node| node.owns() && !node.gone);
    let mut above = owners.into_iter().max_by_key(|&number| plan.nodes[number].level);
    while above.is_none_or(|number| plan.nodes[number].level < 17) {
        let number = plan.nodes.len();
        add(plan, lone(SCOPE, 0, above, Vec::new(), 0));
        if let Some(owner) = above.replace(number)
            && !plan.join(number, owner, random)
        {
            return false;
        }
    }
    fits_most(plan)
}

fn over_the_reserve(plan: &mut Plan, _: &mut Random) -> bool {
    let (reserve, last) = (plan.reserve(), plan.slot_room - 1);
    let spare = plan.slot_room.saturating_sub(reserve) + 1;
    // The slots above the new end must be free ones: move live links below it.
    if reserve < 2 || plan.free.len() < spare {
        return false;
    }
    let room = last + 1 - spare;
    let mut low: Vec<usize> = plan.free.iter().copied().filter(|&slot| slot < room).collect();
    for place in plan.live() {
        if plan.links[place].slot >= room {
            plan.links[place].slot = low.pop().expect("as many low ones as are wanted");
        }
    }
    plan.free = low;
    plan.slot_room = room;
    true
}

// ---- fourth bullet

fn wrong_flags(plan: &mut Plan, random: &mut Random) -> bool {
    let all = plan.numbers(|_, _| true);
    let Some(number) = random.any_of(&all) else {
        return false;
    };
    let allowed = super::make::allowed(plan, number);
    let old = plan.nodes[number].flags;
    let some = [
        0,
        1,
        2,
        3,
        4,
        5,
        6,
        8,
        16,
        17,
        18,
        32,
        33,
        34,
        48,
        49,
        50,
        64,
        256,
        257,
        old + 256,
        random.word(),
    ];
    let flags = random.one_of(&some);
    if allowed.contains(&flags) {
        return false;
    }
    plan.nodes[number].flags = flags;
    true
}

// ---- fifth bullet

fn unqueued(plan: &mut Plan, random: &mut Random) -> bool {
    let waiting: Vec<usize> =
        plan.queue.iter().copied().filter(|&entry| !plan.nodes[entry].gone).collect();
    random.any_of(&waiting).is_some_and(|entry| {
        plan.queue.retain(|&other| other != entry);
        true
    })
}

fn queued_twice(plan: &mut Plan, random: &mut Random) -> bool {
    let Some(entry) = random.any_of(&plan.queue) else {
        return false;
    };
    plan.queue.push(entry);
    plan.queue.len() <= plan.node_room
}

fn queued_wrongly(plan: &mut Plan, random: &mut Random) -> bool {
    let wrong = plan.numbers(|_, node| node.kind != EFFECT || node.flags == 2);
    let Some(entry) = random.any_of(&wrong).or(Some(plan.nodes.len())).filter(|_| plan.depth > 0)
    else {
        return false;
    };
    plan.queue.push(entry);
    plan.queue.len() <= plan.node_room
}
