//! The program `show` on stored scripts and on the oracle's cases. What is stored in tests/shown was made by the same calls.

use std::fs;
use std::io::Write;
use std::path::{Path, PathBuf};
use std::process::{Command, Output, Stdio};

use simmerthread::Refusal;

/// The repository's top.
fn top() -> PathBuf {
    Path::new(env!("CARGO_MANIFEST_DIR")).join("../..")
}

fn text(path: &str) -> String {
    fs::read_to_string(top().join(path)).unwrap_or_else(|error| panic!("{path}: {error}"))
}

fn stored(name: &str) -> String {
    text(&format!("bindings/rust/tests/shown/{name}"))
}

fn show(arguments: &str, script: &[u8]) -> Output {
    let mut child = Command::new(env!("CARGO_BIN_EXE_show"))
        .args(arguments.split_whitespace())
        .stdin(Stdio::piped())
        .stdout(Stdio::piped())
        .stderr(Stdio::piped())
        .spawn()
        .expect("it was built");
    // It may end before it has read everything.
    let _ = child.stdin.take().expect("it was piped").write_all(script);
    child.wait_with_output().expect("it was started")
}

/// What it prints for a script that can be read.
fn shown(arguments: &str, script: &str) -> String {
    let output = show(arguments, script.as_bytes());
    assert!(output.status.success() && output.stderr.is_empty(), "{arguments}: {output:?}");
    String::from_utf8(output.stdout).expect("scripts that can be read are plain text")
}

/// The oracle's cases in a folder: name, flags, script.
fn cases(folder: &str) -> Vec<(String, String, Vec<u8>)> {
    let mut cases: Vec<_> = fs::read_dir(top().join(folder))
        .expect("the folder is there")
        .map(|entry| entry.expect("so is its entry").path())
        .filter(|path| path.extension().is_some_and(|ending| ending == "in"))
        .map(|path| {
            let name = format!("{folder}/{}", path.file_stem().unwrap().to_str().unwrap());
            let flags = fs::read_to_string(path.with_extension("flags")).unwrap_or_default();
            (name, flags, fs::read(&path).unwrap())
        })
        .collect();
    cases.sort();
    assert!(cases.len() > 30, "{folder} has {} scripts", cases.len());
    cases
}

#[test]
fn steps_as_stored() {
    let seller = shown("steps", &text("crates/simmer/stdin"));
    assert_eq!(seller, stored("seller.steps"));
    assert_eq!(shown("steps", &stored("batch.in")), stored("batch.steps"));
    let small = "steps --nodes 24 --links 20 --cells 80 --rows 1";
    assert_eq!(shown(small, &stored("refusals.in")), stored("refusals.steps"));
}

#[test]
fn pictures_as_stored() {
    let script = text("crates/simmer/stdin");
    let twelve: String = script.split_inclusive('\n').take(24).collect();
    let names = "graph 0=seller 1=sale 2=other 3=balance 4=hold 5=payout";
    assert_eq!(shown(names, &twelve), stored("seller.dot"));
    assert_eq!(shown("graph", &stored("batch.in")), stored("batch.dot"));
}

#[test]
fn the_pages_show_what_is_stored() {
    let indented: String =
        stored("seller.steps").lines().map(|line| format!("    {line}\n")).collect();
    assert!(text("docs/OPERATOR.md").contains(&indented));
    let help = text("simmer");
    for refusal in Refusal::ALL {
        assert!(help.contains(&format!("{}   {}\n", refusal.number(), refusal.sentence())));
    }
}

/// Each line of the steps says the refusal and the payouts of the answer that is stored for it.
#[test]
fn steps_of_every_case() {
    for (name, flags, script) in cases("oracle/cases") {
        // The crate lends at least one row.
        if flags.contains("--rows 0") {
            continue;
        }
        let output = show(&format!("steps {flags}"), &script);
        let steps = String::from_utf8(output.stdout).unwrap();
        let answers = text(&format!("{name}.out"));
        let answers: Vec<&str> = answers.split("code=").skip(1).collect();
        assert_eq!(steps.lines().count(), answers.len(), "{name}");
        for (step, answer) in steps.lines().zip(answers) {
            let code = answer.lines().next().unwrap();
            assert_eq!(code != "0", step.contains(&format!("refusal {code}")), "{name}: {step}");
            let runs = answer.lines().filter_map(|line| line.strip_prefix("run="));
            let pays: Vec<String> =
                runs.map(|run| format!("#{}", run.replace(':', " pays "))).collect();
            assert!(step.contains(&pays.join(", ")), "{name}: {step}");
            assert_eq!(step.matches(" pays ").count(), pays.len(), "{name}: {step}");
        }
    }
}

#[test]
fn causes_at_the_limits() {
    let met = [
        ("11-batch-depth", "(64 batches are open)"),
        ("13-cells", "(it has 65 cells)"),
        ("13-height", "(its height would be 65)"),
        ("17-owner-depth", "(its owner depth would be 17)"),
        ("18-nesting", "(it is nested 17 deep)"),
    ];
    for (case, cause) in met {
        let steps = shown("steps", &text(&format!("oracle/cases/{case}.in")));
        assert!(steps.contains(cause), "{case}");
    }
}

#[test]
fn what_cannot_be_read() {
    for (name, _, script) in cases("oracle/cases/malformed") {
        let steps = show("steps", &script);
        let said = String::from_utf8(steps.stdout).unwrap();
        let last = said.lines().nth(1).unwrap_or_default();
        assert!(
            last.starts_with("   2  line ") && last.ends_with("refusal 2, and the end"),
            "{name}"
        );
        assert_eq!((said.lines().count(), steps.status.code()), (2, Some(1)), "{name}");

        let graph = show("graph", &script);
        let error = String::from_utf8(graph.stderr).unwrap();
        assert!(error.starts_with("graph: line "), "{name}: {error}");
        assert!(String::from_utf8(graph.stdout).unwrap().contains("n0 ["), "{name}");
        assert_eq!(graph.status.code(), Some(1), "{name}");
    }
}

#[test]
fn nothing_and_no_such_words() {
    assert_eq!(shown("steps", ""), "");
    assert!(shown("graph", "").contains("After 0 commands"));
    for arguments in [
        "",
        "steps word",
        "steps 0=",
        "steps --nodes",
        "graph --nodes 1025",
        "graph --rows 0",
        "draw",
    ] {
        let output = show(arguments, b"");
        assert_eq!(output.status.code(), Some(2), "{arguments}");
        assert!(output.stdout.is_empty() && !output.stderr.is_empty(), "{arguments}");
    }
}

#[test]
fn the_greatest_tables() {
    let names: String = (1..1_024).map(|_| "cmd=1\nargs=5\n").collect();
    let host = "--nodes 1024 --links 8192 --cells 8192 --rows 1024";
    let script = names + "cmd=3\nargs=-1 3 0 2 0 2 1022\ncmd=1\nargs=5\n";
    let steps = shown(&format!("steps {host}"), &script);
    assert!(steps.ends_with("(all 1024 nodes are made)\n"));
    assert_eq!(shown(&format!("graph {host}"), &script).matches(" label=<").count(), 1_025);
}
