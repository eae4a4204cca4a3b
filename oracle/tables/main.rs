//! Wrong tables: the port's refusal 1 against the judge, a second well-formed test. Document 01
//! decides between the two.

mod change;
mod choices;
mod judge;
mod layout;
mod make;
mod plan;
mod probe;
#[path = "../driver/generate/random.rs"]
mod random;
mod refusal;
mod runs;
mod spoil;
mod tally;

use std::io;
use std::process::ExitCode;

const USAGE: &str = "\
usage: tables changed PROBE SEED COUNT NODES LINKS CELLS < SCRIPTS
           one word changed in tables that the scripts' runs reach
       tables made PROBE SEED COUNT
           tables that no run need reach, well formed or just not
       tables emptied PROBE SEED COUNT
           tables of any lengths, emptied";

fn main() -> ExitCode {
    let words: Vec<String> = std::env::args().skip(1).collect();
    let words: Vec<&str> = words.iter().map(String::as_str).collect();
    let number = |word: &str| word.parse::<usize>().ok();
    let two = |first, second| number(first).zip(number(second));
    let done = match words[..] {
        ["changed", probe, seed, count, nodes, links, cells] => {
            let numbers: Option<Vec<usize>> =
                [seed, count, nodes, links, cells].map(number).into_iter().collect();
            numbers.map(|n| runs::changed(probe, n[0] as u64, n[1], [n[2], n[3], n[4]]))
        }
        ["made", probe, seed, count] => {
            two(seed, count).map(|(seed, count)| runs::made(probe, seed as u64, count))
        }
        ["emptied", probe, seed, count] => {
            two(seed, count).map(|(seed, count)| runs::emptied(probe, seed as u64, count))
        }
        _ => None,
    };
    let Some(done) = done else {
        eprintln!("{USAGE}");
        return ExitCode::from(2);
    };
    done.unwrap_or_else(|error: io::Error| {
        eprintln!("tables: {error}");
        ExitCode::FAILURE
    })
}
