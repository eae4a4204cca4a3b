//! The engine's tables as plain numbers, taken after a command.

use std::collections::HashMap;

use super::peek;
use super::perform::Engine;
use crate::node::{Link, Node};
use crate::system;

/// A link as seen from one of its ends: the node at the other, and its version.
#[derive(Clone, Copy, PartialEq, Eq)]
pub struct Edge {
    pub node: usize,
    pub version: usize,
}

pub struct NodeView {
    pub flags: u8,
    pub value: Option<i64>,
    pub pending: Option<i64>,
    /// Both lists from head to tail.
    pub deps: Vec<Edge>,
    pub subs: Vec<Edge>,
}

pub struct View {
    pub depth: usize,
    pub cycle: usize,
    pub queue: Vec<usize>,
    pub nodes: Vec<NodeView>,
}

impl View {
    pub fn of(engine: &Engine) -> View {
        let numbers: HashMap<usize, usize> =
            engine.nodes().enumerate().map(|(n, node)| (peek::address(node), n)).collect();
        let number = |node: Node| numbers[&peek::address(node)];
        View {
            depth: system::get_batch_depth(),
            cycle: peek::count(system::get_cycle()),
            queue: system::with_queued(|queue| {
                queue.as_slice_mut().iter().map(|&effect| number(effect.into())).collect()
            }),
            nodes: engine.nodes().map(|node| view_node(node, &number)).collect(),
        }
    }
}

fn view_node(node: Node, number: &impl Fn(Node) -> usize) -> NodeView {
    let edge =
        |link: &Link, end: Node| Edge { node: number(end), version: peek::count(link.version()) };
    let deps = walk(node.deps(), node.deps_tail(), Link::next_dep, Link::prev_dep);
    let subs = walk(node.subs(), node.subs_tail(), Link::next_sub, Link::prev_sub);
    NodeView {
        flags: peek::byte(node.flags()),
        value: peek::value(node),
        pending: peek::pending(node),
        deps: deps.iter().map(|link| edge(link, link.dep())).collect(),
        subs: subs.iter().map(|link| edge(link, link.sub())).collect(),
    }
}

type Neighbour = fn(&Link) -> Option<Link>;

/// A list from head to tail. Neighbours or a tail that disagree abort the run.
fn walk(head: Option<Link>, tail: Option<Link>, next: Neighbour, prev: Neighbour) -> Vec<Link> {
    let mut list: Vec<Link> = Vec::new();
    let mut at = head;
    while let Some(link) = at {
        assert!(prev(&link) == list.last().copied(), "neighbours of a link");
        list.push(link);
        at = next(&link);
    }
    assert!(tail == list.last().copied(), "tail of a list");
    list
}
