//! The original engine in its natural use: nodes as values in the program, and closures that work out the same formulas.

use std::cell::RefCell;
use std::rc::Rc;

use oracle::driver::formula::{Formula, cells_of};
use oracle::{Computed, Effect, EffectScope, Signal};
use oracle::{end_batch, get_active_sub, set_active_sub, start_batch};
use simmerthread::Command;

use crate::answers::Answers;

/// The code of a cell that reads a node.
const READ: i64 = 2;

/// A node that can be read.
#[derive(Clone, Copy)]
enum Source {
    Signal(Signal<i64>),
    Computed(Computed<i64>),
}

impl Source {
    fn get(self) -> i64 {
        match self {
            Source::Signal(signal) => signal.get(),
            Source::Computed(computed) => computed.get(),
        }
    }
}

/// Makes something with a scope as its owner.
type Under = Box<dyn Fn(&mut dyn FnMut())>;

enum Made {
    Source(Source),
    Effect,
    Scope(Under),
}

/// A command of a turn, with its node looked up.
enum Call {
    Set(Signal<i64>, i64),
    Add(Signal<i64>, i64),
    Read(Source),
    Start,
    End,
}

#[derive(Default)]
pub struct Original {
    made: Vec<Made>,
    log: Rc<RefCell<Vec<[i64; 2]>>>,
    turn: Vec<Call>,
}

impl Original {
    /// Makes the graph, and looks up the nodes of the turn.
    pub fn new(graph: &[Command], turn: &[Command], answers: &mut Answers) -> Self {
        let mut original = Original::default();
        for command in graph {
            original.make(command);
            answers.take(original.made.len() as i64 - 1, &original.log.borrow());
            original.log.borrow_mut().clear();
        }
        original.turn = turn.iter().map(|command| original.call(command)).collect();
        original
    }

    /// The turn, so many times.
    pub fn run(&mut self, times: usize, answers: &mut Answers) {
        for _ in 0..times {
            for call in &self.turn {
                let value = match *call {
                    Call::Set(signal, value) => {
                        signal.set(value);
                        0
                    }
                    Call::Add(signal, amount) => {
                        signal.set_with(|current| current.saturating_add(amount));
                        0
                    }
                    Call::Read(source) => source.get(),
                    Call::Start => {
                        start_batch();
                        0
                    }
                    Call::End => {
                        end_batch();
                        0
                    }
                };
                let mut log = self.log.borrow_mut();
                answers.take(value, &log);
                log.clear();
            }
        }
    }

    fn make(&mut self, command: &Command) {
        let made = match command {
            Command::Signal { value } => Made::Source(Source::Signal(Signal::new(*value))),
            Command::Computed { formula } => {
                let value = self.getter(formula.words());
                Made::Source(Source::Computed(Computed::new(move |_| value())))
            }
            Command::Effect { owner, formula } => {
                let value = self.getter(formula.words());
                let (log, effect) = (self.log.clone(), self.made.len() as i64);
                let mut run = Some(move || {
                    let value = value();
                    log.borrow_mut().push([effect, value]);
                });
                let mut make = || drop(Effect::new(run.take().expect("made once")));
                match owner.map(|owner| &self.made[owner.0 as usize]) {
                    None => make(),
                    Some(Made::Scope(under)) => under(&mut make),
                    Some(_) => unreachable!("in these shapes only scopes own"),
                }
                Made::Effect
            }
            Command::Scope { .. } => {
                let under: Rc<RefCell<Option<Under>>> = Rc::default();
                let seen = under.clone();
                drop(EffectScope::new(move || {
                    let scope = get_active_sub();
                    *seen.borrow_mut() = Some(Box::new(move |make| {
                        set_active_sub(scope);
                        make();
                        set_active_sub(None);
                    }));
                }));
                Made::Scope(under.take().expect("a scope's body runs at once"))
            }
            _ => unreachable!("a graph is made of nodes"),
        };
        self.made.push(made);
    }

    /// The formula as a function of nothing. Its read cells name places in its own list of nodes.
    fn getter(&self, words: &[i64]) -> impl Fn() -> i64 + 'static {
        let mut cells = cells_of(words);
        let mut sources = Vec::new();
        for cell in cells.iter_mut().filter(|cell| cell.code == READ) {
            sources.push(self.source(cell.operand));
            cell.operand = sources.len() as i64 - 1;
        }
        let formula = Formula::of(&cells).expect("the shapes' formulas are legal");
        move || formula.value(&|place| sources[place as usize].get())
    }

    fn source(&self, number: i64) -> Source {
        match self.made[number as usize] {
            Made::Source(source) => source,
            _ => unreachable!("the shapes read signals and computeds"),
        }
    }

    fn call(&self, command: &Command) -> Call {
        let signal = |number: i64| match self.source(number) {
            Source::Signal(signal) => signal,
            Source::Computed(_) => unreachable!("the shapes write signals"),
        };
        match command {
            Command::Set { node, value } => Call::Set(signal(node.0), *value),
            Command::Add { node, amount } => Call::Add(signal(node.0), *amount),
            Command::Read { node } => Call::Read(self.source(node.0)),
            Command::Start => Call::Start,
            Command::End => Call::End,
            _ => unreachable!("a turn makes no nodes"),
        }
    }
}
