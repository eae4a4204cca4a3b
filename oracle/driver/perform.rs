//! The accepted commands, performed on the unchanged engine through its public functions.

use std::cell::{OnceCell, RefCell};
use std::collections::BTreeMap;
use std::rc::Rc;

use super::books::Row;
use super::command::{Command, NO_OWNER};
use super::formula::{Cell, Formula, named};
use crate::node::Node;
use crate::{Computed, Effect, EffectScope, Signal};
use crate::{end_batch, get_active_sub, set_active_sub, start_batch};

/// A node as the engine handed it out. An effect's or scope's handle is spent by its disposal.
enum Made {
    Signal(Signal<i64>),
    Computed(Computed<i64>),
    Effect(Node, Option<Effect>),
    Scope(Node, Option<EffectScope>),
}

/// What a formula may read.
#[derive(Clone, Copy)]
enum Source {
    Signal(Signal<i64>),
    Computed(Computed<i64>),
}

impl Source {
    fn get(self) -> i64 {
        match self {
            Source::Signal(signal) => signal.get(),
            Source::Computed(computed) => computed.get(),
        }
    }
}

/// The engine's nodes by number, and the log its effects write to.
#[derive(Default)]
pub struct Engine {
    made: Vec<Made>,
    log: Rc<RefCell<Vec<Row>>>,
}

impl Engine {
    /// The value returned, and the rows logged on the way.
    pub fn perform(&mut self, command: &Command) -> (i64, Vec<Row>) {
        let value = match command {
            Command::Signal { value } => self.keep(Made::Signal(Signal::new(*value))),
            Command::Computed { cells } => self.keep(self.computed(cells)),
            Command::Effect { owner, cells } => self.keep(self.effect(*owner, cells)),
            Command::Scope { owner } => self.keep(self.scope(*owner)),
            Command::Read { node } => self.source(*node).get(),
            Command::Set { node, value } => {
                self.signal(*node).set(*value);
                0
            }
            Command::Add { node, amount } => {
                self.signal(*node).set_with(|current| current.saturating_add(*amount));
                0
            }
            Command::Dispose { node } => {
                self.dispose(*node);
                0
            }
            Command::Start => {
                start_batch();
                0
            }
            Command::End => {
                end_batch();
                0
            }
        };
        (value, self.log.take())
    }

    /// The engine's own nodes, in number order.
    pub fn nodes(&self) -> impl Iterator<Item = Node> {
        self.made.iter().map(|made| match made {
            Made::Signal(signal) => signal.0.into(),
            Made::Computed(computed) => computed.0.into(),
            Made::Effect(node, _) | Made::Scope(node, _) => *node,
        })
    }

    /// Keeps a new node under the next number, which it returns.
    fn keep(&mut self, made: Made) -> i64 {
        self.made.push(made);
        self.made.len() as i64 - 1
    }

    fn computed(&self, cells: &[Cell]) -> Made {
        let value = self.getter(cells);
        Made::Computed(Computed::new(move |_| value()))
    }

    /// The effect's first run tells its node, which the engine keeps to itself.
    fn effect(&self, owner: i64, cells: &[Cell]) -> Made {
        let (effect, value, log) = (self.made.len(), self.getter(cells), self.log.clone());
        let node = Rc::new(OnceCell::new());
        let seen = node.clone();
        let run = move || {
            seen.get_or_init(active_node);
            let value = value();
            log.borrow_mut().push(Row { effect, value });
        };
        let handle = self.under(owner, || Effect::new(run));
        Made::Effect(*node.get().expect("a new effect runs at once"), Some(handle))
    }

    fn scope(&self, owner: i64) -> Made {
        let node = Rc::new(OnceCell::new());
        let seen = node.clone();
        let body = move || {
            seen.get_or_init(active_node);
        };
        let handle = self.under(owner, || EffectScope::new(body));
        Made::Scope(*node.get().expect("a new scope's body runs at once"), Some(handle))
    }

    /// Makes a node with its owner as the active subscriber; between commands there is none.
    fn under<T>(&self, owner: i64, make: impl FnOnce() -> T) -> T {
        set_active_sub((owner != NO_OWNER).then(|| self.owner(owner)));
        let made = make();
        set_active_sub(None);
        made
    }

    /// The formula as a function of nothing, with the nodes it names looked up beforehand.
    fn getter(&self, cells: &[Cell]) -> impl Fn() -> i64 + 'static {
        let formula = Formula::of(cells).expect("refusal 5 let the formula pass");
        let sources: BTreeMap<i64, Source> =
            named(cells).map(|number| (number, self.source(number))).collect();
        move || formula.value(&|number| sources[&number].get())
    }

    fn dispose(&mut self, number: i64) {
        match &mut self.made[number as usize] {
            Made::Effect(_, handle) => handle.take().expect("refusal 4 let it pass").dispose(),
            Made::Scope(_, handle) => handle.take().expect("refusal 4 let it pass").dispose(),
            _ => unreachable!("refusal 3 let it pass"),
        }
    }

    fn signal(&self, number: i64) -> Signal<i64> {
        match self.made[number as usize] {
            Made::Signal(signal) => signal,
            _ => unreachable!("refusal 3 let it pass"),
        }
    }

    fn source(&self, number: i64) -> Source {
        match self.made[number as usize] {
            Made::Signal(signal) => Source::Signal(signal),
            Made::Computed(computed) => Source::Computed(computed),
            _ => unreachable!("refusals 3 and 5 let it pass"),
        }
    }

    fn owner(&self, number: i64) -> Node {
        match self.made[number as usize] {
            Made::Effect(node, _) | Made::Scope(node, _) => node,
            _ => unreachable!("refusal 3 let it pass"),
        }
    }
}

fn active_node() -> Node {
    get_active_sub().expect("the engine makes a node active while it runs")
}
