//! Document 01's "Flags and tables at rest", looked for in the engine after a command. A broken
//! rule aborts the run: it would mean that the document and the Rust disagree.

use super::books::{Books, Entry, Kind};
use super::formula::named;
use super::refusals::{MOST_BATCH_DEPTH, MOST_HEIGHT, MOST_OWNER_DEPTH};
use super::view::{NodeView, View};

const WATCHING: u8 = 2;

pub fn check(books: &Books, view: &View) {
    assert!(view.depth == books.depth && view.depth <= MOST_BATCH_DEPTH, "batch depth");
    assert!(view.nodes.len() == books.nodes.len(), "node count");
    check_links(books, view);
    check_queue(books, view);
    for (number, (entry, node)) in books.nodes.iter().zip(&view.nodes).enumerate() {
        assert!(flags_fit(entry, node, view.queue.contains(&number)), "flags of {number}");
        assert!(dependencies_fit(books, number, node), "dependencies of {number}");
        assert!(subscribers_fit(entry, node), "subscribers of {number}");
        assert!(entry.height <= MOST_HEIGHT, "height of {number}");
        assert!(entry.owner_depth <= MOST_OWNER_DEPTH, "owner depth of {number}");
    }
}

/// Every link stands once in each of its two lists, and the reserve covers the live ones.
fn check_links(books: &Books, view: &View) {
    let mut from_deps = Vec::new();
    let mut from_subs = Vec::new();
    for (number, node) in view.nodes.iter().enumerate() {
        from_deps.extend(node.deps.iter().map(|edge| (edge.node, number, edge.version)));
        from_subs.extend(node.subs.iter().map(|edge| (number, edge.node, edge.version)));
    }
    from_deps.sort();
    from_subs.sort();
    assert!(from_deps == from_subs, "the two lists of a link");
    assert!(from_deps.len() <= books.reserve(), "live links past the reserve");
    assert!(books.reserve() <= books.room.links, "reserve past the link slots");
}

/// Each live effect without WATCHING once, maybe gone ones with flags 0 once, nothing else.
fn check_queue(books: &Books, view: &View) {
    for (number, (entry, node)) in books.nodes.iter().zip(&view.nodes).enumerate() {
        let times = view.queue.iter().filter(|&&queued| queued == number).count();
        let fits = match (entry.kind, entry.gone) {
            (Kind::Effect, false) => times == usize::from(node.flags & WATCHING == 0),
            (Kind::Effect, true) => times == 0 || times == 1 && node.flags == 0,
            _ => times == 0,
        };
        assert!(fits, "queue places of {number}");
    }
    assert!(view.depth > 0 || view.queue.is_empty(), "a queue at depth 0");
}

fn flags_fit(entry: &Entry, node: &NodeView, queued: bool) -> bool {
    let reads = node.deps.len() - owned_among(entry, node);
    match (entry.kind, node.flags) {
        (Kind::Signal, 1 | 17) => true,
        (Kind::Computed, 0) => node.value.is_none() && node.deps.is_empty() && node.subs.is_empty(),
        (Kind::Computed, 1) => node.value.is_some(),
        (Kind::Computed, 17) => node.value.is_some() && node.deps.is_empty(),
        (Kind::Computed, 33 | 49) => node.value.is_some() && !node.deps.is_empty(),
        (Kind::Effect, 0 | 2) if entry.gone => true,
        (Kind::Effect, 2) => !queued,
        (Kind::Effect, 0) => queued,
        (Kind::Effect, 32 | 48) => queued && reads > 0,
        (Kind::Scope, 0) => true,
        _ => false,
    }
}

/// How many of a node's dependencies its formula doesn't name: those it owns.
fn owned_among(entry: &Entry, node: &NodeView) -> usize {
    node.deps.iter().filter(|edge| !names(entry, edge.node)).count()
}

fn names(entry: &Entry, number: usize) -> bool {
    named(&entry.cells).any(|name| name == number as i64)
}

/// Read links go to lower nodes the cells name, at most as many; the others to owned nodes.
fn dependencies_fit(books: &Books, number: usize, node: &NodeView) -> bool {
    let entry = &books.nodes[number];
    let reads = node.deps.len() - owned_among(entry, node);
    let each_fits = node.deps.iter().all(|edge| {
        let dep = &books.nodes[edge.node];
        match dep.kind {
            Kind::Signal | Kind::Computed => edge.node < number && names(entry, edge.node),
            Kind::Effect | Kind::Scope => dep.owner == Some(number),
        }
    });
    each_fits && reads <= named(&entry.cells).count() && (!entry.gone || node.deps.is_empty())
}

/// A live owned node has one subscriber, its owner; an unowned or gone one has none.
fn subscribers_fit(entry: &Entry, node: &NodeView) -> bool {
    let subs: Vec<usize> = node.subs.iter().map(|edge| edge.node).collect();
    match (entry.kind, entry.owner) {
        (Kind::Signal | Kind::Computed, _) => true,
        (_, Some(owner)) if !entry.gone => subs == [owner],
        _ => subs.is_empty(),
    }
}
