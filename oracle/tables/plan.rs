//! Tables as a plan: nodes, links in list order, the queue, the free list. Laid down as words with
//! anything at all in the words without meaning (docs/DECISIONS.md, 36).

use super::layout::*;
use super::random::Random;

#[derive(Clone)]
pub struct Node {
    pub kind: u64,
    pub gone: bool,
    pub owner: Option<usize>,
    pub flags: u64,
    pub level: u64,
    pub cells: Vec<[i64; CELL]>,
    pub start: usize,
    pub reads: u64,
}

impl Node {
    pub fn names(&self) -> Vec<usize> {
        self.cells.iter().filter(|cell| cell[0] == 2).map(|cell| cell[1] as usize).collect()
    }

    pub fn can_be_read(&self) -> bool {
        matches!(self.kind, SIGNAL | COMPUTED)
    }

    pub fn owns(&self) -> bool {
        matches!(self.kind, EFFECT | SCOPE)
    }
}

#[derive(Clone)]
pub struct Link {
    pub dep: usize,
    pub sub: usize,
    pub slot: usize,
    pub live: bool,
}

#[derive(Clone)]
pub struct Plan {
    pub nodes: Vec<Node>,
    pub links: Vec<Link>,
    /// Places in `links`, in list order, a list a node.
    pub deps: Vec<Vec<usize>>,
    pub subs: Vec<Vec<usize>>,
    pub free: Vec<usize>,
    pub queue: Vec<usize>,
    pub depth: u64,
    pub used: usize,
    pub node_room: usize,
    pub slot_room: usize,
    pub cell_room: usize,
}

impl Plan {
    /// A new link, somewhere in its two lists, on a free slot; false if there is none.
    pub fn join(&mut self, dep: usize, sub: usize, random: &mut Random) -> bool {
        let Some(slot) = self.free.pop() else {
            return false;
        };
        let place = self.links.len();
        self.links.push(Link { dep, sub, slot, live: true });
        let at = random.below(self.deps[sub].len() + 1);
        self.deps[sub].insert(at, place);
        let at = random.below(self.subs[dep].len() + 1);
        self.subs[dep].insert(at, place);
        true
    }

    /// Takes a link out of both its lists; its slot is free again.
    pub fn part(&mut self, place: usize) {
        let Link { dep, sub, slot, .. } = self.links[place];
        self.links[place].live = false;
        self.deps[sub].retain(|&other| other != place);
        self.subs[dep].retain(|&other| other != place);
        self.free.push(slot);
    }

    /// The places of links that stand in lists.
    pub fn live(&self) -> Vec<usize> {
        self.deps.iter().flatten().copied().collect()
    }

    pub fn read_links(&self, number: usize) -> usize {
        self.deps[number]
            .iter()
            .filter(|&&place| self.nodes[self.links[place].dep].can_be_read())
            .count()
    }

    /// The numbers of the nodes that fit.
    pub fn numbers(&self, fits: impl Fn(usize, &Node) -> bool) -> Vec<usize> {
        (0..self.nodes.len()).filter(|&number| fits(number, &self.nodes[number])).collect()
    }

    pub fn reserve(&self) -> usize {
        let live = self.nodes.iter().filter(|node| !node.gone);
        live.map(|node| 2 * node.names().len() + usize::from(node.owner.is_some())).sum()
    }

    pub fn lay(&self, random: &mut Random) -> Tables {
        let mut tables = Tables::blank(self.node_room, self.slot_room, self.cell_room);
        for word in tables.nodes.iter_mut().chain(&mut tables.links) {
            *word = random.word();
        }
        for word in tables.values.iter_mut().chain(&mut tables.cells) {
            *word = random.word() as i64;
        }
        tables.nodes[COUNT] = self.nodes.len() as u64;
        tables.nodes[USED] = self.used as u64;
        tables.nodes[DEPTH] = self.depth;
        tables.nodes[QUEUE] = self.queue.len() as u64;
        for (number, node) in self.nodes.iter().enumerate() {
            self.lay_node(number, node, &mut tables);
        }
        for (place, &entry) in self.queue.iter().enumerate() {
            tables.set_node(place, QUEUE, entry as u64);
        }
        self.lay_links(&mut tables, random);
        tables
    }

    fn lay_node(&self, number: usize, node: &Node, tables: &mut Tables) {
        tables.set_node(number, FLAGS, node.flags);
        tables.set_node(number, KIND, node.kind);
        tables.set_node(number, GONE, u64::from(node.gone));
        tables.set_node(number, OWNER, word(node.owner));
        tables.set_node(number, LEVEL, node.level);
        if !node.cells.is_empty() {
            tables.set_node(number, START, node.start as u64);
            tables.set_node(number, CELLS, node.cells.len() as u64);
            tables.set_node(number, READS, node.reads);
            let words = node.cells.as_flattened();
            tables.cells[CELL * node.start..][..words.len()].copy_from_slice(words);
        }
        let ends = |list: &[usize]| {
            let slot = |place: Option<&usize>| word(place.map(|&place| self.links[place].slot));
            (slot(list.first()), slot(list.last()))
        };
        let (head, tail) = ends(&self.deps[number]);
        tables.set_node(number, DEPS, head);
        tables.set_node(number, DEPS_TAIL, tail);
        let (head, tail) = ends(&self.subs[number]);
        tables.set_node(number, SUBS, head);
        tables.set_node(number, SUBS_TAIL, tail);
    }

    /// Backwards, so that a list which names a slot twice goes round and round.
    fn lay_links(&self, tables: &mut Tables, random: &mut Random) {
        tables.links[FREE] = word(self.free.first().copied());
        for (place, &slot) in self.free.iter().enumerate().rev() {
            tables.set_link(slot, LIVE, 0);
            tables.set_link(slot, NEXT_DEP, word(self.free.get(place + 1).copied()));
        }
        for link in self.links.iter().filter(|link| link.live) {
            tables.set_link(link.slot, DEP, link.dep as u64);
            tables.set_link(link.slot, SUB, link.sub as u64);
            let live = if random.chance(90) { 1 } else { random.word().max(1) };
            tables.set_link(link.slot, LIVE, live);
        }
        for (lists, prev, next) in
            [(&self.deps, PREV_DEP, NEXT_DEP), (&self.subs, PREV_SUB, NEXT_SUB)]
        {
            for list in lists {
                let slots: Vec<usize> = list.iter().map(|&place| self.links[place].slot).collect();
                for (place, &slot) in slots.iter().enumerate().rev() {
                    let before = place.checked_sub(1).map(|earlier| slots[earlier]);
                    tables.set_link(slot, prev, word(before));
                    tables.set_link(slot, next, word(slots.get(place + 1).copied()));
                }
            }
        }
    }
}
