//! Commands that are meant to be accepted, one at a time or planned ahead.

use super::Writer;
use super::profile::{Action, MAKING, Profile};
use crate::driver::books::Kind;
use crate::driver::command::NO_OWNER;
use crate::driver::formula::{MOST_CELLS, named};
use crate::driver::refusals::{MOST_BATCH_DEPTH, MOST_HEIGHT, MOST_OWNER_DEPTH};

/// Past this depth most draws are ends, so that batches get closed.
const COMFORTABLE_DEPTH: usize = 4;

impl Writer {
    pub fn draw(&mut self) -> Vec<i64> {
        if self.books().depth > COMFORTABLE_DEPTH && self.random.chance(60) {
            return vec![10];
        }
        let action = self.random.weighted(&self.profile.actions());
        self.act(action)
    }

    /// A command that makes a node.
    pub fn draw_node(&mut self) -> Vec<i64> {
        let action = self.random.weighted(&self.profile.actions()[..MAKING]);
        self.act(action)
    }

    fn act(&mut self, action: Action) -> Vec<i64> {
        match action {
            Action::Signal => vec![1, self.value()],
            Action::Computed => [vec![2], self.formula()].concat(),
            Action::Effect => [vec![3, self.owner()], self.formula()].concat(),
            Action::Scope => vec![4, self.owner()],
            Action::Set => self.on_signal(|writer, number| vec![5, number, writer.value()]),
            Action::Add => self.on_signal(|writer, number| vec![6, number, writer.value()]),
            Action::Read => self.read(),
            Action::Dispose => self.dispose(),
            Action::Start => vec![9],
            Action::End => vec![10],
        }
    }

    /// Small values mostly, so that sets that change nothing and chooses that switch are common.
    pub fn value(&mut self) -> i64 {
        let often = if self.profile == Profile::Odd { 35 } else { 4 };
        if self.random.chance(often) {
            let near = self.random.below(3) as i64;
            let any = self.random.next() as i64;
            let far = [i64::MAX, i64::MIN, i64::MAX - near, i64::MIN + near, any];
            return self.random.one_of(&far);
        }
        match self.random.chance(70) {
            true => self.random.one_of(&[0, 0, 1, 1, 2, -1]),
            false => self.random.below(100) as i64 - 50,
        }
    }

    /// None, a late live effect or scope, or any live one.
    fn owner(&mut self) -> i64 {
        let chance = if self.profile == Profile::Owners { 75 } else { 25 };
        let live = self.live();
        if live.is_empty() || !self.random.chance(chance) {
            return NO_OWNER;
        }
        let late = if self.random.chance(60) { live.len().saturating_sub(3) } else { 0 };
        self.random.one_of(&live[late..])
    }

    fn on_signal(&mut self, make: impl Fn(&mut Self, i64) -> Vec<i64>) -> Vec<i64> {
        let signals = self.numbers(|entry| entry.kind == Kind::Signal);
        match self.random.any_of(&signals) {
            Some(number) => make(self, number),
            None => vec![1, self.value()],
        }
    }

    fn read(&mut self) -> Vec<i64> {
        let number = if self.random.chance(15) { self.highest() } else { self.source() };
        number.map_or(vec![9], |number| vec![7, number])
    }

    fn dispose(&mut self) -> Vec<i64> {
        let live = self.live();
        self.random.any_of(&live).map_or(vec![9], |number| vec![8, number])
    }

    /// Effects and scopes that aren't gone.
    pub fn live(&self) -> Vec<i64> {
        self.numbers(|entry| matches!(entry.kind, Kind::Effect | Kind::Scope) && !entry.gone)
    }

    /// Commands that belong together; a refused one ends the plan.
    pub fn plan(&mut self) -> Vec<Vec<i64>> {
        let left = self.books().room.nodes - self.books().nodes.len();
        match self.random.below(10) {
            0..3 => return self.busy_batch(),
            3..5 => return self.there_and_back(),
            _ => {}
        }
        match self.profile {
            Profile::Deep => self.tower(left),
            Profile::Odd if self.random.chance(25) => self.tower(left),
            Profile::Wide => {
                let wide = self.many();
                self.fan(left.min(wide))
            }
            Profile::Owners => self.family(left),
            Profile::Batch | Profile::Odd if self.random.chance(60) => self.deep_batch(),
            Profile::Batch | Profile::Odd => self.busy_batch(),
            Profile::Full => self.fill(left),
        }
    }

    /// A dozen mostly, at times a good part of the node table.
    fn many(&mut self) -> usize {
        match self.random.chance(25) {
            true => 12.max(self.books().room.nodes / 4),
            false => 12,
        }
    }

    /// A batch of writes with reads and disposals between them.
    fn busy_batch(&mut self) -> Vec<Vec<i64>> {
        let most = if self.random.chance(10) { self.many() } else { 6 };
        let mut plan = vec![vec![9]];
        for _ in 0..3 + self.random.below(most) {
            plan.push(match self.random.below(10) {
                0 => self.dispose(),
                1..4 => self.read(),
                4 => self.on_signal(|writer, number| vec![6, number, writer.value()]),
                _ => self.on_signal(|writer, number| vec![5, number, writer.value()]),
            });
        }
        plan.push(vec![10]);
        plan
    }

    /// A batch that sets a signal that an effect names, and sets it back (case 4), at times with a
    /// read between (case 5).
    fn there_and_back(&mut self) -> Vec<Vec<i64>> {
        let effects = self.numbers(|entry| entry.kind == Kind::Effect && !entry.gone);
        let names = effects.iter().flat_map(|&effect| named(&self.entry(effect).cells));
        let signals: Vec<i64> =
            names.filter(|&name| self.entry(name).kind == Kind::Signal).collect();
        let Some(signal) = self.random.any_of(&signals) else {
            return Vec::new();
        };
        let value = self.value();
        let other = value ^ 1;
        let mut plan = vec![vec![5, signal, value], vec![9], vec![5, signal, other]];
        if self.random.chance(20) {
            plan.push(self.read());
        }
        plan.extend([vec![5, signal, value], vec![10]]);
        plan
    }

    /// Computeds on top of the highest, or on another node, up to one too high.
    fn tower(&mut self, left: usize) -> Vec<Vec<i64>> {
        let signals = self.numbers(|entry| entry.kind == Kind::Signal);
        let low = self.random.any_of(&signals).filter(|_| self.random.chance(60));
        let Some(top) = low.or_else(|| self.highest()).or_else(|| self.source()) else {
            return Vec::new();
        };
        let first = self.books().nodes.len() as i64;
        let count = (MOST_HEIGHT + 1 - self.entry(top).height).min(left + 1);
        let below = |i: usize| if i == 0 { top } else { first + i as i64 - 1 };
        (0..count)
            .map(|i| match i % 3 {
                0 => vec![2, 2, below(i)],
                1 => vec![2, 3, 0, 2, below(i), 2, below(i - 1)],
                _ => vec![2, 4, 0, 2, below(i), 1, 1],
            })
            .collect()
    }

    /// Effects on one signal, and a write to it.
    fn fan(&mut self, left: usize) -> Vec<Vec<i64>> {
        let signals = self.numbers(|entry| entry.kind == Kind::Signal);
        let Some(signal) = self.random.any_of(&signals) else {
            return Vec::new();
        };
        let mut plan: Vec<Vec<i64>> = (0..left).map(|_| vec![3, NO_OWNER, 2, signal]).collect();
        plan.push(vec![6, signal, 1]);
        plan
    }

    /// Each the owner of the next, one too deep at last.
    fn family(&mut self, left: usize) -> Vec<Vec<i64>> {
        let first = self.books().nodes.len() as i64;
        let count = (MOST_OWNER_DEPTH + 1).min(left + 1);
        (0..count as i64)
            .map(|i| {
                let owner = if i == 0 { NO_OWNER } else { first + i - 1 };
                match self.random.chance(40) {
                    true => vec![4, owner],
                    false => [vec![3, owner], self.leaf()].concat(),
                }
            })
            .collect()
    }

    /// Starts, one too many.
    fn deep_batch(&mut self) -> Vec<Vec<i64>> {
        vec![vec![9]; MOST_BATCH_DEPTH + 1 - self.books().depth]
    }

    /// Nodes until one of the three tables is full.
    fn fill(&mut self, left: usize) -> Vec<Vec<i64>> {
        let room = self.books().room;
        let cells = (room.cells / 4).min(MOST_CELLS - 1) | 1;
        let large = (room.cells - self.books().cells_used()) / cells + 1;
        match self.random.below(4) {
            0..2 if left < self.commands_left => (0..=left)
                .map(|i| if i % 4 == 3 { vec![4, NO_OWNER] } else { vec![1, 0] })
                .collect(),
            2 => (0..large).map(|_| [vec![2], self.sized(cells, true)].concat()).collect(),
            _ => {
                (0..large).map(|_| [vec![3, NO_OWNER], self.sized(cells, false)].concat()).collect()
            }
        }
    }
}
