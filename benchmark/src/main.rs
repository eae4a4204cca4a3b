//! The library's speed beside the original engine's, on the same commands in one run: ratios, how they grow, the cost of the test of the
//! tables, the host's day and the stack. docs/PERFORMANCE.md says what the tables mean; it has each under the heading that is printed here.
//!
//! usage: benchmark [--quick]

mod answers;
mod goals;
mod library;
mod measure;
mod original;
mod shapes;
mod stack;
mod table;

use std::process::ExitCode;

use measure::{Full, Pains, Times, measure, test_of_tables};
use shapes::{DAY, SHAPES, SIZES, WRITES};
use stack::Depth;
use table::{Table, thousands};

fn main() -> ExitCode {
    let words: Vec<String> = std::env::args().skip(1).collect();
    let pains = match words.iter().map(String::as_str).collect::<Vec<_>>()[..] {
        [] => Pains::FULL,
        ["--quick"] => Pains::QUICK,
        _ => {
            eprintln!("usage: bench [--quick]");
            return ExitCode::from(2);
        }
    };
    let measured: Vec<(&str, Vec<Times>)> = SHAPES
        .iter()
        .map(|(name, shape)| {
            (*name, SIZES.map(|size| measure(name, size, &shape(size), pains)).to_vec())
        })
        .collect();
    if words.len() == 1 {
        println!(
            "bench: {} shapes at {} sizes, both engines answer the same",
            SHAPES.len(),
            SIZES.len()
        );
        return ExitCode::SUCCESS;
    }
    let full = test_of_tables();
    let depths = stack::depths();
    for (heading, table) in [
        ("Goals", goals::goals(&measured, &full, &depths)),
        ("Inside one call", ratios(&measured, |times| times.script)),
        ("One call a command", ratios(&measured, |times| times.one_by_one)),
        ("Nanoseconds a command", absolute(&measured)),
        ("The test of full tables", test(&full)),
        ("A second of the host's day", day(&measured)),
        ("Stack", deepest(&depths)),
    ] {
        println!("## {heading}\n\n{table}");
    }
    ExitCode::SUCCESS
}

/// Ours over the original's by size, and how many times longer a turn is at the greatest size than at the least.
fn ratios(measured: &[(&str, Vec<Times>)], ours: fn(&Times) -> f64) -> Table {
    let sizes = SIZES.map(|size| format!("{} nodes", thousands(size)));
    let mut head = vec!["Shape"];
    head.extend(sizes.iter().map(String::as_str));
    head.extend(["original grows", "library grows"]);
    let mut table = Table::new(&head);
    for (name, times) in measured {
        let mut row = vec![name.to_string()];
        row.extend(times.iter().map(|at| format!("{:.2}", ours(at) / at.original)));
        let (first, last) = (&times[0], &times[times.len() - 1]);
        row.push(format!("{:.1}", last.original / first.original));
        row.push(format!("{:.1}", ours(last) / ours(first)));
        table.row(row);
    }
    table
}

/// Times a command at the least and the greatest size.
fn absolute(measured: &[(&str, Vec<Times>)]) -> Table {
    let mut table = Table::new(&[
        "Shape",
        "nodes",
        "commands a turn",
        "original",
        "inside one call",
        "one call a command",
    ]);
    for (name, times) in measured {
        for at in [&times[0], &times[times.len() - 1]] {
            let each = |turn: f64| thousands((turn / at.commands as f64).round() as usize);
            table.row(vec![
                name.to_string(),
                thousands(at.nodes),
                at.commands.to_string(),
                each(at.original),
                each(at.script),
                each(at.one_by_one),
            ]);
        }
    }
    table
}

fn test(full: &Full) -> Table {
    let mut table = Table::new(&["Over 1,024 nodes, 8,192 links, 8,192 cells", "microseconds"]);
    let micros = |nanos: f64| format!("{:.1}", nanos / 1_000.0);
    table.row(vec![format!("the sum of all {} words", thousands(full.words)), micros(full.sum)]);
    table.row(vec!["the test of the tables".into(), micros(full.test)]);
    table.row(vec!["ratio".into(), format!("{:.2}", full.test / full.sum)]);
    table
}

/// The last shape's turn is one second of the day.
fn day(measured: &[(&str, Vec<Times>)]) -> Table {
    let (_, times) = measured.iter().find(|(name, _)| *name == DAY).expect("it is a shape");
    let at = &times[times.len() - 1];
    let what =
        format!("{WRITES} writes in {} commands on {} nodes", at.commands, thousands(at.nodes));
    let mut table = Table::new(&[&what, "milliseconds", "share of one core"]);
    let mut row = |name: &str, nanos: f64| {
        table.row(vec![
            name.into(),
            format!("{:.3}", nanos / 1e6),
            format!("{:.3} %", nanos / 1e7),
        ]);
    };
    row("the original", at.original);
    row("the library, one call a second", at.whole());
    row("the library, one call a command", at.one_by_one);
    table
}

fn deepest(depths: &[Depth]) -> Table {
    let mut table = Table::new(&["The call that goes deepest", "bytes"]);
    for (name, bytes) in depths {
        table.row(vec![name.to_string(), thousands(*bytes)]);
    }
    table
}
