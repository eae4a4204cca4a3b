//! One shape at one size, through the original and through the library, taking turns.

use std::hint::black_box;
use std::time::{Duration, Instant};

use simmerthread::{Command, Room};

use crate::answers::Answers;
use crate::library::Lent;
use crate::original::Original;
use crate::shapes::{Work, full};

/// How long and how often is measured.
#[derive(Clone, Copy)]
pub struct Pains {
    /// A sample is at least so long for the original.
    pub sample: Duration,
    /// Samples of the original and of whole scripts.
    pub samples: usize,
    /// Samples with one call a command, which take longer; each call of them is timed.
    pub slow_samples: usize,
}

impl Pains {
    pub const FULL: Pains =
        Pains { sample: Duration::from_micros(300), samples: 300, slow_samples: 60 };
    pub const QUICK: Pains =
        Pains { sample: Duration::from_micros(1), samples: 3, slow_samples: 2 };
}

/// The least time of a turn, in nanoseconds.
#[derive(Clone, Copy)]
pub struct Times {
    pub nodes: usize,
    pub commands: usize,
    pub original: f64,
    /// In one call, less the test of the tables.
    pub script: f64,
    /// The test of the tables.
    pub test: f64,
    /// A call a command: the least time of each, summed. A whole turn can be too long to be left alone by what else runs.
    pub one_by_one: f64,
}

impl Times {
    /// A whole turn as one call, the test of the tables with it.
    pub fn whole(&self) -> f64 {
        self.script + self.test
    }
}

/// Tables for so many nodes; at the greatest size they are the host's.
pub fn room(nodes: usize) -> Room {
    Room { nodes, links: 8 * nodes, cells: 8 * nodes, rows: nodes }
}

/// The least times; it ends the program if the engines do not answer the same.
pub fn measure(name: &str, size: usize, work: &Work, pains: Pains) -> Times {
    let same = |theirs: Answers, ours: Answers| {
        assert_eq!(theirs, ours, "{name} at {size} nodes: the engines differ");
    };
    let mut theirs = Answers::default();
    let mut original = Original::new(&work.graph, &work.turn, &mut theirs);
    // Two sets of tables: one for a call a command, one for scripts.
    let mut lent = [0; 2].map(|_| Lent::new(room(size.max(work.nodes))));
    let mut ours = [Answers::default(); 2];
    for (lent, ours) in lent.iter_mut().zip(&mut ours) {
        for command in &work.graph {
            lent.answer(&command.words(), ours);
        }
        same(theirs, *ours);
    }
    let [single, scripted] = &mut lent;
    let [ours, ours_scripted] = &mut ours;
    let turn: Vec<Vec<i64>> = work.turn.iter().map(Command::words).collect();
    let one_by_one = |lent: &mut Lent, times: usize, answers: &mut Answers| {
        for _ in 0..times {
            for words in &turn {
                lent.answer(words, answers);
            }
        }
    };

    // Repeated until it is long enough for the clock.
    let mut times = 1;
    while clock(|| original.run(times, &mut theirs)) < pains.sample {
        times *= 2;
    }
    // The library catches up.
    one_by_one(single, 2 * times - 1, ours);
    one_by_one(scripted, 2 * times - 1, ours_scripted);
    same(theirs, *ours);
    same(theirs, *ours_scripted);

    // The list that is a sample, made ready beforehand, and room for what it answers.
    let list: Vec<i64> =
        turn.iter().flat_map(|words| [&[words.len() as i64], &words[..]].concat()).collect();
    let list = list.repeat(times);
    let before = theirs.rows;
    original.run(times, &mut theirs);
    scripted.make_room((theirs.rows - before) as usize + 2 * work.nodes, times * turn.len());
    scripted.script(&list, ours_scripted);
    same(theirs, *ours_scripted);
    one_by_one(single, times, ours);

    let mut least = Times {
        nodes: work.nodes,
        commands: work.turn.len(),
        original: f64::INFINITY,
        script: f64::INFINITY,
        test: f64::INFINITY,
        one_by_one: 0.0,
    };
    let mut calls = vec![f64::INFINITY; turn.len()];
    // What the original had answered after each sample: one call a command is behind, since its samples are spread over the others.
    let mut answered = Vec::new();
    let mut slow = 0;
    for sample in 0..pains.samples {
        least.original = least.original.min(nanos(|| original.run(times, black_box(&mut theirs))));
        least.script = least.script.min(nanos(|| scripted.script(&list, black_box(ours_scripted))));
        least.test = least.test.min(nanos(|| scripted.script(&[], black_box(ours_scripted))));
        same(theirs, *ours_scripted);
        answered.push(theirs);
        if sample * pains.slow_samples >= slow * pains.samples {
            for _ in 0..times {
                for (words, call) in turn.iter().zip(&mut calls) {
                    *call = call.min(nanos(|| single.answer(words, black_box(ours))));
                }
            }
            same(answered[slow], *ours);
            slow += 1;
        }
    }
    least.one_by_one = calls.iter().sum();
    least.script -= least.test;
    least.original /= times as f64;
    least.script /= times as f64;
    least
}

fn nanos(work: impl FnOnce()) -> f64 {
    clock(work).as_nanos() as f64
}

fn clock(work: impl FnOnce()) -> Duration {
    let start = Instant::now();
    work();
    start.elapsed()
}

/// Least times on tables that are as full as they may be, in nanoseconds.
pub struct Full {
    pub words: usize,
    pub sum: f64,
    pub test: f64,
}

/// The test of full tables: a command that is refused right after it; and one sum over the same words.
pub fn test_of_tables() -> Full {
    let mut lent = Lent::new(Room::HOST);
    for command in full() {
        lent.answer(&command.words(), &mut Answers::default());
    }
    let one_more = Command::Signal { value: 0 }.words();
    assert_eq!(lent.send(&one_more), 7, "the tables are full");
    let mut least = Full { words: lent.words(), sum: f64::INFINITY, test: f64::INFINITY };
    for _ in 0..500 {
        let sum = nanos(|| {
            black_box(black_box(&lent).sum());
        });
        let test = nanos(|| assert_eq!(lent.send(&[0]), 2, "there is no command 0"));
        least.sum = least.sum.min(sum);
        least.test = least.test.min(test);
    }
    least
}
