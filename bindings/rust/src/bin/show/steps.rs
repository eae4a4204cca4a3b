//! Each command with its answer, in words, a line each.

use std::collections::BTreeMap;
use std::io::{self, BufRead, Write};

use simmerthread::{Command, Node, Refusal, Run, Script, Tables, Unreadable};

use crate::cause::cause;
use crate::names::Names;

/// Where the answers begin, if the commands leave room.
const COLUMN: usize = 40;

/// Plays the script. Whether all of it could be read.
pub fn show<R: BufRead>(tables: Tables, script: Script<R>, names: &Names) -> io::Result<bool> {
    let mut out = io::stdout().lock();
    let mut steps = Steps { tables, names, gone: BTreeMap::new() };
    for (i, words) in script.enumerate() {
        let number = i + 1;
        match words {
            Ok(words) => {
                let (command, answer) = (in_words(&words, names), steps.answer(number, &words));
                writeln!(out, "{number:>4}  {command:<COLUMN$}  {answer}")?;
            }
            Err(why @ Unreadable::Line { .. }) => {
                writeln!(out, "{number:>4}  {why}: refusal 2, and the end")?;
                return Ok(false);
            }
            Err(why @ Unreadable::Input(_)) => {
                eprintln!("steps: {why}");
                return Ok(false);
            }
        }
    }
    Ok(true)
}

/// A command in words; its lines, where it is none of the ten or its cells are no formula.
fn in_words(words: &[i64], names: &Names) -> String {
    if let Some(command) = Command::from_words(words) {
        return command.named(|node| names.of(node));
    }
    let numbers: Vec<String> = words[1..].iter().map(i64::to_string).collect();
    format!("cmd={} args={}", words[0], numbers.join(" "))
}

struct Steps<'a> {
    tables: Tables,
    names: &'a Names,
    /// The command that each gone node went with.
    gone: BTreeMap<Node, usize>,
}

impl Steps<'_> {
    /// Sends a command. The answer in words.
    fn answer(&mut self, number: usize, words: &[i64]) -> String {
        let waited: Vec<Node> = self.tables.queue().collect();
        let sent = self.tables.send(words);
        match sent.map(|answer| (answer.value, answer.runs().collect::<Vec<Run>>())) {
            Ok((value, runs)) => {
                let mut said = self.value(words[0], value);
                said.extend(self.waiting(words[0], &waited));
                said.extend(self.payouts(words[0], &runs));
                said.extend(self.leaving(number));
                said.join("; ")
            }
            Err(refusal) => {
                let cause = cause(&self.tables, words, refusal, self.names);
                let since = match words {
                    [_, node, ..] if refusal == Refusal::Gone => self.gone.get(&Node(*node)),
                    _ => None,
                };
                let since = since.map_or(String::new(), |at| format!(" since command {at}"));
                format!("{refusal} ({cause}{since})")
            }
        }
    }

    /// What the value means.
    fn value(&self, code: i64, value: i64) -> Vec<String> {
        let node = Node(value);
        match (code, self.names.get(node)) {
            (1..=4, None) => vec![format!("made {node}")],
            (1..=4, Some(name)) => vec![format!("made {node}, {name}")],
            (7, _) => vec![format!("worth {value}")],
            _ => vec![],
        }
    }

    /// In a batch: its depth, and the effects that wait and did not before.
    fn waiting(&self, code: i64, before: &[Node]) -> Option<String> {
        match (self.tables.depth(), code) {
            (0, _) => None,
            (depth, 9 | 10) => Some(format!("batch depth {depth}")),
            (_, 5 | 6) => {
                let more: Vec<Node> =
                    self.tables.queue().filter(|node| !before.contains(node)).collect();
                Some(match (more.is_empty(), before.is_empty()) {
                    (false, _) => format!("queued: {}", self.names.list(more)),
                    (true, true) => "nothing queued".to_string(),
                    (true, false) => "nothing more queued".to_string(),
                })
            }
            _ => None,
        }
    }

    fn payouts(&self, code: i64, runs: &[Run]) -> Option<String> {
        let pay = |run: &Run| format!("{} pays {}", self.names.of(run.effect), run.value);
        let each: Vec<String> = runs.iter().map(pay).collect();
        match (each.len(), self.tables.depth(), code) {
            (0, 0, 5 | 6 | 10) => Some("no payout".to_string()),
            (0, _, _) => None,
            (1, _, _) => Some(format!("1 payout: {}", each[0])),
            (count, _, _) => Some(format!("{count} payouts: {}", each.join(", "))),
        }
    }

    /// What is gone now and was not before.
    fn leaving(&mut self, number: usize) -> Option<String> {
        let gone = self.tables.records().filter(|record| record.is_gone());
        let new: Vec<Node> =
            gone.map(|record| record.node()).filter(|node| !self.gone.contains_key(node)).collect();
        self.gone.extend(new.iter().map(|&node| (node, number)));
        (!new.is_empty()).then(|| format!("gone: {}", self.names.list(new)))
    }
}
