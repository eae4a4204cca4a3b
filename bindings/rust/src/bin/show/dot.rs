//! The tables behind a script's last command as Graphviz DOT.

use std::collections::{BTreeMap, BTreeSet};
use std::io::{self, BufRead, Write};

use simmerthread::{Flags, Kind, Node, Record, Run, Script, Tables};

use crate::names::Names;

/// Characters of a formula's line, and of one below the picture.
const FORMULA: usize = 36;
const BELOW: usize = 100;
/// Effects in a row of the queue's box.
const ROW: usize = 12;

const HEAD: &str = r##"digraph simmer {
  graph [rankdir=LR nodesep=0.3 ranksep=0.6 fontname="Helvetica,Arial,sans-serif" fontsize=11 labelloc=b]
  node [style=filled fontname="Helvetica,Arial,sans-serif" fontsize=12 margin="0.15,0.08"]
  edge [color="#374151" arrowsize=0.7]
"##;

/// How a kind of node is drawn.
fn shape(kind: Kind) -> &'static str {
    match kind {
        Kind::Signal => r##"shape=box fillcolor="#dbeafe" color="#1d4ed8""##,
        Kind::Computed => {
            r##"shape=box style="filled,rounded" fillcolor="#fef9c3" color="#a16207""##
        }
        Kind::Effect => r##"shape=cds fillcolor="#dcfce7" color="#15803d" margin="0.3,0.17""##,
        Kind::Scope => r##"shape=folder fillcolor="#f3f4f6" color="#4b5563""##,
    }
}

/// From an owner to what it owns.
const OWNS: &str = r##"style=dashed color="#6b7280" dir=back arrowtail=odiamond"##;
/// From a node to a formula that names it and is not linked to it now.
const NAMED: &str = r##"style=dotted color="#9ca3af" arrowhead=none"##;

const QUEUE: &str =
    r##"BORDER="0" CELLBORDER="1" CELLSPACING="0" CELLPADDING="5" COLOR="#b91c1c""##;
const GREY: &str = "#4b5563";
const RED: &str = "#b91c1c";

/// Plays the script and draws what it leaves. Whether all of it could be read.
pub fn show<R: BufRead>(tables: Tables, script: Script<R>, names: &Names) -> io::Result<bool> {
    let mut picture = Picture { tables, names, commands: 0, refused: 0, paid: BTreeMap::new() };
    let mut all = true;
    for words in script {
        match words {
            Ok(words) => picture.play(&words),
            Err(why) => {
                eprintln!("graph: {why}; what stands before it is drawn");
                all = false;
            }
        }
    }
    io::stdout().write_all(picture.text().as_bytes())?;
    Ok(all)
}

/// The tables, and what the script has done so far.
struct Picture<'a> {
    tables: Tables,
    names: &'a Names,
    commands: usize,
    refused: usize,
    /// The last payout of each effect, and how many it has made.
    paid: BTreeMap<Node, (i64, usize)>,
}

impl Picture<'_> {
    fn play(&mut self, words: &[i64]) {
        self.commands += 1;
        match self.tables.send(words) {
            Err(_) => self.refused += 1,
            Ok(answer) => {
                for Run { effect, value } in answer.runs() {
                    let (last, count) = self.paid.entry(effect).or_default();
                    (*last, *count) = (value, *count + 1);
                }
            }
        }
    }

    fn text(&self) -> String {
        let mut text = HEAD.to_string();
        let below = filled(&escaped(&self.summary()), BELOW).join("<BR/>");
        text += &format!("  label=<<BR/>{below}>\n");
        let live = || self.tables.records().filter(|record| !record.is_gone());
        for record in live() {
            let (node, shape) = (record.node().0, shape(record.kind()));
            text += &format!("  n{node} [{shape} label=<{}>]\n", self.label(&record));
        }
        for record in live() {
            text += &self.arrows(&record);
        }
        if self.tables.queue().len() > 0 {
            text += &format!("  queue [shape=plain style=\"\" label=<{}>]\n", self.queue());
        }
        text + "}\n"
    }

    /// What a node reads and owns, in the order of its links; then what its formula names besides.
    fn arrows(&self, record: &Record<'_>) -> String {
        let mut text = String::new();
        let mut arrow = |from: String, to: String, how: &str| {
            let how = if how.is_empty() { String::new() } else { format!(" [{how}]") };
            text += &format!("  {from} -> {to}{how}\n");
        };
        let linked: Vec<Node> = record.dependencies().collect();
        for dependency in linked.iter().filter_map(|&node| self.tables.record(node)) {
            match dependency.kind() {
                Kind::Signal | Kind::Computed => {
                    arrow(side(&dependency, "e"), side(record, "w"), "");
                }
                Kind::Effect | Kind::Scope => {
                    arrow(side(record, "e"), side(&dependency, "w"), OWNS);
                }
            }
        }
        let formula = record.formula();
        let named: BTreeSet<Node> = formula.iter().flat_map(|formula| formula.reads()).collect();
        for node in named.iter().filter(|node| !linked.contains(node)) {
            arrow(format!("n{}", node.0), side(record, "w"), NAMED);
        }
        text
    }

    /// What stands in a node.
    fn label(&self, record: &Record<'_>) -> String {
        let node = record.node();
        let mut lines = Vec::new();
        if let Some(name) = self.names.get(node) {
            lines.push(bold(name));
        }
        lines.push(small(&format!("{} {node}", record.kind()), GREY));
        if let Some(formula) = record.formula() {
            let text = formula.named(|node| self.names.of(node));
            lines.extend(even(&text, FORMULA).iter().map(|line| escaped(line)));
        }
        if let Some(value) = record.value() {
            let flags = record.flags();
            lines.push(match record.kind() {
                Kind::Signal => bold(&value.to_string()),
                // A computed that is marked keeps the value that it had.
                _ if flags.has(Flags::DIRTY) || flags.has(Flags::PENDING) => {
                    bold(&format!("was {value}"))
                }
                _ => bold(&format!("= {value}")),
            });
        }
        if let Some((value, count)) = self.paid.get(&node) {
            lines.push(bold(&format!("paid {value}")));
            if *count > 1 {
                lines.push(small(&format!("{count} payouts"), GREY));
            }
        }
        let marks = self.marks(record);
        if !marks.is_empty() {
            lines.push(small(&marks.join(", "), RED));
        }
        lines.join("<BR/>")
    }

    /// Its flags in words, but for those that it has at rest.
    fn marks(&self, record: &Record<'_>) -> Vec<String> {
        let flags = record.flags();
        let mut marks = Vec::new();
        if record.kind() == Kind::Computed && flags == Flags(0) {
            marks.push("not yet worked out".to_string());
        }
        if let Some(place) = self.tables.queue().position(|node| node == record.node()) {
            marks.push(format!("queued at {}", place + 1));
        }
        let rest = flags.clear(Flags::MUTABLE).clear(Flags::WATCHING);
        if rest != Flags(0) {
            marks.push(rest.to_string());
        }
        // No flag: a signal never has the one of this name.
        if let Some(pending) = record.pending().filter(|&pending| Some(pending) != record.value()) {
            marks.push(format!("pending {pending}"));
        }
        marks
    }

    /// The queue as a box, the next to run first.
    fn queue(&self) -> String {
        let cell = |node| {
            let called = escaped(&self.names.of(node).to_string());
            match self.tables.record(node) {
                Some(record) if record.is_gone() => {
                    format!("<TD>{called} {}</TD>", small("gone", RED))
                }
                _ => format!("<TD>{called}</TD>"),
            }
        };
        let cells: Vec<String> = self.tables.queue().map(cell).collect();
        let rows: String =
            cells.chunks(ROW).map(|row| format!("<TR>{}</TR>", row.concat())).collect();
        let columns = cells.len().min(ROW);
        let head =
            format!("<TR><TD COLSPAN=\"{columns}\" BORDER=\"0\">queue, the next first</TD></TR>");
        format!("<TABLE {QUEUE}>{head}{rows}</TABLE>")
    }

    /// What stands below the picture.
    fn summary(&self) -> String {
        let commands = if self.commands == 1 { "command" } else { "commands" };
        let mut text = format!("After {} {commands}", self.commands);
        if self.refused > 0 {
            text += &format!(", {} of them refused", self.refused);
        }
        text += &match self.tables.depth() {
            0 => ": no batch is open".to_string(),
            1 => ": a batch is open".to_string(),
            depth => format!(": {depth} batches are open"),
        };
        let gone = self.tables.records().filter(|record| record.is_gone());
        let gone = ranges(gone.map(|record| record.node()));
        if !gone.is_empty() {
            text += &format!("; gone: {gone}");
        }
        text
    }
}

/// A node at an arrow's end. Of an effect it is a side, since Graphviz takes its outline for higher than it is.
fn side(record: &Record<'_>, side: &str) -> String {
    let node = record.node().0;
    if record.kind() == Kind::Effect { format!("n{node}:{side}") } else { format!("n{node}") }
}

/// Nodes in number order, those without a gap as the first and the last.
fn ranges(nodes: impl Iterator<Item = Node>) -> String {
    let mut ranges: Vec<(Node, Node)> = Vec::new();
    for node in nodes {
        match ranges.last_mut() {
            Some((_, last)) if last.0 + 1 == node.0 => *last = node,
            _ => ranges.push((node, node)),
        }
    }
    let text = |&(first, last): &(Node, Node)| match last.0 - first.0 {
        0 => first.to_string(),
        1 => format!("{first}, {last}"),
        _ => format!("{first} to {last}"),
    };
    ranges.iter().map(text).collect::<Vec<_>>().join(", ")
}

/// As few lines as will do, about as long as each other.
fn even(text: &str, most: usize) -> Vec<String> {
    let fewest = filled(text, most).len();
    let width = (1..most).find(|&width| filled(text, width).len() == fewest).unwrap_or(most);
    filled(text, width)
}

/// Lines cut at spaces, each as full as can be.
fn filled(text: &str, most: usize) -> Vec<String> {
    let mut lines: Vec<String> = Vec::new();
    for word in text.split(' ') {
        match lines.last_mut() {
            Some(line) if line.chars().count() + 1 + word.chars().count() <= most => {
                line.push(' ');
                line.push_str(word);
            }
            _ => lines.push(word.to_string()),
        }
    }
    lines
}

fn bold(text: &str) -> String {
    format!("<B>{}</B>", escaped(text))
}

fn small(text: &str, color: &str) -> String {
    format!("<FONT POINT-SIZE=\"10\" COLOR=\"{color}\">{}</FONT>", escaped(text))
}

/// Text inside Graphviz's HTML-like labels.
fn escaped(text: &str) -> String {
    text.replace('&', "&amp;").replace('<', "&lt;").replace('>', "&gt;").replace('"', "&quot;")
}
