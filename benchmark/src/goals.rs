//! The goals, what was measured of each, and whether it is met.

use crate::measure::{Full, Times};
use crate::shapes::DAY;
use crate::stack::Depth;
use crate::table::{Table, thousands};

/// Most times longer than one sum that the test of full tables may take.
const MOST_SUMS: f64 = 8.0;

/// "Well within" one core is at most this share of it.
const WELL_WITHIN: f64 = 0.1;

pub fn goals(measured: &[(&str, Vec<Times>)], full: &Full, depths: &[Depth]) -> Table {
    let mut table = Table::of_text(&["Goal", "Figure", ""]);
    let mut row = |goal: &str, figure: String, verdict: &str| {
        table.row(vec![goal.into(), figure, verdict.into()]);
    };
    let met = |met: bool| if met { "met" } else { "missed" };

    // The day is told apart: it is the only shape whose turn does not grow with the graph.
    let of = |day: bool| measured.iter().filter(move |(name, _)| (*name == DAY) == day);
    let ratios = |day: bool| range(of(day).flat_map(|(_, times)| times.iter().map(ratio)));
    let growths =
        |day: bool| range(of(day).map(|(_, times)| ratio(last(times)) / ratio(&times[0])));

    let ([least, most], [_, days]) = (ratios(false), ratios(true));
    row(
        "inside one call, no shape slower than the original",
        format!("{least:.2} to {most:.2} times its time; the day at most {days:.2}"),
        met(most.max(days) <= 1.0),
    );
    let faster = measured.iter().filter(|(_, times)| ratio(last(times)) < 1.0).count();
    row(
        "most shapes faster",
        format!("{faster} of {} at the greatest size", measured.len()),
        met(2 * faster > measured.len()),
    );
    let ([least, most], [_, days]) = (growths(false), growths(true));
    row(
        "no shape whose cost grows faster from 16 to 1,024 nodes",
        format!("it grows {least:.2} to {most:.2} times as much; the day {days:.2} times"),
        met(most.max(days) <= 1.0),
    );
    let sums = full.test / full.sum;
    row(
        "the test of full tables at most eight times one sum over them",
        format!("{sums:.2} times"),
        met(sums <= MOST_SUMS),
    );
    let (_, times) = of(true).next().expect("it is a shape");
    let share = last(times).whole() / 1e9;
    row(
        "the host's day well within one core",
        format!("{:.3} % of it with one call a second", 100.0 * share),
        met(share <= WELL_WITHIN),
    );
    let deepest = depths.iter().map(|(_, bytes)| *bytes).max().unwrap_or(0);
    row("stack at the worst shapes measured", format!("{} bytes", thousands(deepest)), "done");
    table
}

/// The library's time inside one call over the original's.
fn ratio(at: &Times) -> f64 {
    at.script / at.original
}

fn last(times: &[Times]) -> &Times {
    &times[times.len() - 1]
}

/// The least and the greatest.
fn range(figures: impl Iterator<Item = f64>) -> [f64; 2] {
    figures.fold([f64::INFINITY, 0.0], |[least, most], one| [least.min(one), most.max(one)])
}
