//! What a script turned out to hold, told from the commands, the answers and the tables.

use super::counts::Counts;
use crate::driver::books::{Books, Entry, Kind};
use crate::driver::command::Command;
use crate::driver::formula::{Cell, MOST_CELLS, MOST_NESTING, named};
use crate::driver::perform::Engine;
use crate::driver::refusals::{MOST_BATCH_DEPTH, MOST_HEIGHT, MOST_OWNER_DEPTH};
use crate::driver::script::Answer;
use crate::driver::session::Session;
use crate::driver::view::View;

/// From this height on a computed counts as a deep graph.
const DEEP: usize = 16;
/// From this owner depth on a node counts as nested.
const NESTED: usize = 3;

/// A set of nodes: what one node's formula names, and what those name, and so on.
type Reach = Vec<bool>;

/// The tables before a command, and what the open batch held so far.
pub struct Observer {
    pub counts: Counts,
    before: View,
    reaches: Vec<Reach>,
    written: bool,
    read_since: bool,
}

impl Observer {
    pub fn new(engine: &Engine) -> Self {
        Observer {
            counts: Counts::new(),
            before: View::of(engine),
            reaches: Vec::new(),
            written: false,
            read_since: false,
        }
    }

    /// Takes note of a command that the session has just answered.
    pub fn note(&mut self, words: &[i64], answer: &Answer, session: &Session) {
        self.counts.add("commands");
        let command = Command::of(words);
        match (command, answer.code) {
            (Some(command), 0) => {
                self.counts.add("accepted");
                let after = View::of(&session.engine);
                self.note_new_node(&session.books);
                self.note_batch(&command);
                self.note_values(&command, answer, &session.books);
                self.note_tables(&command, answer, &after, &session.books);
                self.before = after;
            }
            (Some(command), code) => self.note_refused(&command, code, &session.books),
            (None, _) => self.counts.add("refused_2"),
        }
    }

    fn note_refused(&mut self, command: &Command, code: u8, books: &Books) {
        let counts = &mut self.counts;
        counts.add(&format!("refused_{code}"));
        let cells = command.cells().unwrap_or(&[]);
        match (code, command) {
            (5, _) => {
                counts.add_if("cells_65", cells.len() == MOST_CELLS + 1);
                counts.add_if("nesting_17", nesting(cells) == MOST_NESTING + 1);
            }
            (6, Command::Computed { .. }) => counts.add("height_65"),
            (6, _) => counts.add("owner_depth_17"),
            (7, _) if books.nodes.len() == books.room.nodes => counts.add("full_of_nodes"),
            (7, _) if books.cells_used() + cells.len() > books.room.cells => {
                counts.add("full_of_cells")
            }
            (7, _) => counts.add("full_of_links"),
            (8, Command::Start) => counts.add("batch_depth_65"),
            _ => {}
        }
    }

    fn note_new_node(&mut self, books: &Books) {
        let Some(entry) = books.nodes.get(self.before.nodes.len()) else {
            return;
        };
        let diamond = self.note_reach(&entry.cells, books.nodes.len() - 1);
        let counts = &mut self.counts;
        counts.add_if("diamonds", diamond);
        counts.add_if("deep_graphs", entry.height >= DEEP);
        counts.add_if("height_64", entry.height == MOST_HEIGHT);
        counts.add_if("nested_owners", entry.owner_depth >= NESTED);
        counts.add_if("owner_depth_16", entry.owner_depth == MOST_OWNER_DEPTH);
        counts.add_if("cells_64", entry.cells.len() == MOST_CELLS);
        counts.add_if("nesting_16", nesting(&entry.cells) == MOST_NESTING);
        counts.add_if("scopes_between_owner_and_child", scope_between(entry, books));
        let reads = named(&entry.cells).count();
        counts.add_if("effects_without_reads", entry.kind == Kind::Effect && reads == 0);
    }

    /// Enters what a new node reaches; true if two different nodes it names reach a common one.
    fn note_reach(&mut self, cells: &[Cell], number: usize) -> bool {
        let mut reach = vec![false; number + 1];
        let mut diamond = false;
        let mut names: Vec<usize> = named(cells).map(|name| name as usize).collect();
        names.sort();
        names.dedup();
        for name in names {
            for (place, reached) in self.reaches[name].iter().enumerate() {
                diamond |= *reached && reach[place];
                reach[place] |= *reached;
            }
        }
        reach[number] = true;
        self.reaches.push(reach);
        diamond
    }

    fn note_batch(&mut self, command: &Command) {
        let inside = self.before.depth > 0;
        match command {
            Command::Start => {
                let last = self.before.depth + 1 == MOST_BATCH_DEPTH;
                self.counts.add_if("batch_depth_64", last);
            }
            Command::Dispose { node } => {
                let queued = self.before.queue.contains(&(*node as usize));
                self.counts.add_if("disposals_in_batches", inside);
                self.counts.add_if("disposals_of_queued_effects", queued);
            }
            Command::Set { .. } | Command::Add { .. } => {
                let between = inside && self.written && self.read_since;
                self.counts.add_if("reads_between_writes", between);
                (self.written, self.read_since) = (inside, false);
            }
            Command::Read { .. } => self.read_since = true,
            Command::End if self.before.depth == 1 => self.written = false,
            _ => {}
        }
    }

    fn note_values(&mut self, command: &Command, answer: &Answer, books: &Books) {
        let counts = &mut self.counts;
        let is_end = |value: i64| value == i64::MIN || value == i64::MAX;
        for row in &answer.rows {
            counts.add_if("results_at_an_end", is_end(row.value));
        }
        match *command {
            Command::Read { node } => {
                let (entry, seen) =
                    (&books.nodes[node as usize], &self.before.nodes[node as usize]);
                let computed = entry.kind == Kind::Computed;
                counts.add_if("results_at_an_end", computed && is_end(answer.value));
                counts.add_if("reads_of_stale_computeds", computed && seen.flags > 1);
            }
            Command::Add { node, amount } => {
                let current = self.before.nodes[node as usize].value.unwrap_or(0);
                counts.add("adds");
                counts.add_if("adds_that_stop_at_an_end", current.checked_add(amount).is_none());
            }
            Command::Set { node, value } => {
                let pending = self.before.nodes[node as usize].pending;
                counts.add_if("writes_that_change_nothing", pending == Some(value));
            }
            _ => {}
        }
    }

    fn note_tables(&mut self, command: &Command, answer: &Answer, after: &View, books: &Books) {
        let counts = &mut self.counts;
        let may_flush = matches!(command, Command::Set { .. } | Command::Add { .. } | Command::End);
        let flushes = may_flush && after.depth == 0;
        let queued = !self.before.queue.is_empty();
        counts.add_if("flushes_of_two_rows_or_more", flushes && answer.rows.len() >= 2);
        counts.add_if("flushes_that_run_nothing", flushes && queued && answer.rows.is_empty());
        let owners_ran = answer.rows.iter().any(|row| owned_by(row.effect, &self.before, books));
        counts.add_if("reruns_that_dispose", flushes && owners_ran);
        counts.add_if("repeated_reads", doubled(after) > doubled(&self.before));
        for (number, node) in self.before.nodes.iter().enumerate() {
            let (entry, now) = (&books.nodes[number], &after.nodes[number]);
            let (old, new) = (reads(&self.before, number, books), reads(after, number, books));
            let chooses = entry.cells.iter().any(|cell| cell.code == 8);
            let both = !old.is_empty() && !new.is_empty();
            counts.add_if("branch_switches", chooses && both && old != new);
            let dropped = entry.kind == Kind::Computed && !node.deps.is_empty();
            counts.add_if("unwatched_computeds", dropped && now.flags == 17);
        }
    }
}

/// The nodes a node's links say it read, in list order.
fn reads(view: &View, number: usize, books: &Books) -> Vec<usize> {
    let can_be_read = |n: &usize| matches!(books.nodes[*n].kind, Kind::Signal | Kind::Computed);
    view.nodes[number].deps.iter().map(|edge| edge.node).filter(can_be_read).collect()
}

/// How many links stand beside an earlier one of the same pair.
fn doubled(view: &View) -> usize {
    let again = |deps: &[usize]| (0..deps.len()).filter(|&i| deps[..i].contains(&deps[i])).count();
    let lists = view.nodes.iter().map(|node| node.deps.iter().map(|edge| edge.node).collect());
    lists.map(|deps: Vec<usize>| again(&deps)).sum()
}

/// Whether the effect had live children in that view.
fn owned_by(effect: usize, view: &View, books: &Books) -> bool {
    let deps = view.nodes.get(effect).map_or(&[][..], |node| &node.deps);
    deps.iter().any(|edge| books.nodes[edge.node].owner == Some(effect))
}

/// Whether the node's owner is a scope that has an owner itself.
fn scope_between(entry: &Entry, books: &Books) -> bool {
    let Some(owner) = entry.owner.map(|number| &books.nodes[number]) else {
        return false;
    };
    owner.kind == Kind::Scope && owner.owner.is_some()
}

/// The nesting of a well-shaped formula, however large; 0 without cells.
fn nesting(cells: &[Cell]) -> usize {
    let mut owed: Vec<usize> = Vec::new();
    let mut most = 0;
    for cell in cells {
        most = most.max(owed.len() + 1);
        if let Some(last) = owed.last_mut() {
            *last -= 1;
        }
        match cell.code {
            3..=7 => owed.push(2),
            8 => owed.push(3),
            _ => {}
        }
        while owed.last() == Some(&0) {
            owed.pop();
        }
    }
    most
}
