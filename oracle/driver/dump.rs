//! The text of `--dump`, as oracle/README.md sets it out.

use std::io::{self, Write};

use super::view::{Edge, NodeView, View};

pub fn write(view: &View, out: &mut impl Write) -> io::Result<()> {
    let queue: Vec<String> = view.queue.iter().map(usize::to_string).collect();
    writeln!(out, "depth={}", view.depth)?;
    writeln!(out, "cycle={}", view.cycle)?;
    writeln!(out, "queue={}", queue.join(","))?;
    for (number, node) in view.nodes.iter().enumerate() {
        write_node(number, node, out)?;
    }
    Ok(())
}

fn write_node(number: usize, node: &NodeView, out: &mut impl Write) -> io::Result<()> {
    writeln!(
        out,
        "node={number} flags={} value={} pending={} deps={} subs={}",
        node.flags,
        or_none(node.value),
        or_none(node.pending),
        list(&node.deps),
        list(&node.subs),
    )
}

fn or_none(value: Option<i64>) -> String {
    value.map_or("none".to_string(), |value| value.to_string())
}

fn list(edges: &[Edge]) -> String {
    let texts: Vec<String> = edges.iter().map(|e| format!("{}:{}", e.node, e.version)).collect();
    texts.join(",")
}
