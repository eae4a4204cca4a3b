//! What nodes are called.

use std::collections::BTreeMap;
use std::fmt;

use simmerthread::Node;

/// The names that were given, by number.
#[derive(Default)]
pub struct Names(BTreeMap<i64, String>);

impl Names {
    pub fn add(&mut self, node: i64, name: &str) {
        self.0.insert(node, name.to_string());
    }

    pub fn get(&self, node: Node) -> Option<&str> {
        self.0.get(&node.0).map(String::as_str)
    }

    /// Its name, or its number.
    pub fn of(&self, node: Node) -> Called<'_> {
        Called { node, name: self.get(node) }
    }

    /// All of them, in the order given, with commas.
    pub fn list(&self, nodes: impl IntoIterator<Item = Node>) -> String {
        let each: Vec<String> = nodes.into_iter().map(|node| self.of(node).to_string()).collect();
        each.join(", ")
    }
}

/// A node, under its name if it has one.
pub struct Called<'a> {
    node: Node,
    name: Option<&'a str>,
}

impl fmt::Display for Called<'_> {
    fn fmt(&self, out: &mut fmt::Formatter<'_>) -> fmt::Result {
        match self.name {
            Some(name) => out.write_str(name),
            None => self.node.fmt(out),
        }
    }
}
