//! Which word of the tables is which: the list of `crates/primitive/src/rows.rt`, and the words of the kinds in `kinds.rt` beside it, as far as
//! they are read here. Record n is row n + 1; row 0 belongs to the table.

/// Words in a row of the node table, and its fields.
pub const NODE: usize = 16;
pub const FLAGS: usize = 0;
pub const KIND: usize = 1;
pub const GONE: usize = 2;
pub const DEPS: usize = 3;
pub const START: usize = 7;
pub const CELLS: usize = 8;
pub const READS: usize = 9;
pub const OWNER: usize = 10;
pub const LEVEL: usize = 11;
pub const QUEUE: usize = 12;

/// Words of its row 0. The queue's length is its word QUEUE.
pub const COUNT: usize = 7;
pub const USED: usize = 8;
pub const DEPTH: usize = 9;

/// Words in a row of the link table, and its fields.
pub const LINK: usize = 8;
pub const DEP: usize = 1;
pub const NEXT_DEP: usize = 6;

/// Words of a node's values: current and pending, each with a spare word.
pub const VALUES: usize = 4;
pub const PENDING: usize = 2;

/// Words of a formula cell, and of a row of the log.
pub const CELL: usize = 2;
pub const ROW: usize = 2;

/// Kinds of a node.
pub const SIGNAL: u64 = 1;
pub const COMPUTED: u64 = 2;
pub const EFFECT: u64 = 3;
pub const SCOPE: u64 = 4;

#[cfg(test)]
mod tests {
    /// The name and the value of a line `pub const NAME: TYPE = VALUE;`.
    fn constant(line: &str) -> Option<(&str, &str)> {
        let (name, rest) = line.strip_prefix("pub const ")?.split_once(": ")?;
        Some((name, rest.split_once(" = ")?.1.trim_end_matches(';')))
    }

    /// The name, in capitals, and the word of a line `Kind::Name => WORD,`.
    fn kind(line: &str) -> Option<(String, String)> {
        let (name, rest) = line.trim().strip_prefix("Kind::")?.split_once(" => ")?;
        Some((name.to_uppercase(), rest.trim_end_matches(',').to_string()))
    }

    #[test]
    fn as_the_engine_has_them() {
        let rows = include_str!("../../../crates/primitive/src/rows.rt")
            .lines()
            .filter_map(constant)
            .map(|(name, value)| (name.to_string(), value.to_string()));
        let kinds = include_str!("../../../crates/primitive/src/kinds.rt")
            .lines()
            .filter_map(kind);
        let engine: Vec<(String, String)> = rows.chain(kinds).collect();
        let mut compared = 0;
        for (name, value) in include_str!("rows.rs").lines().filter_map(constant) {
            if let Some((_, theirs)) = engine.iter().find(|(theirs, _)| theirs == name) {
                assert_eq!(value, theirs, "{name}");
                compared += 1;
            }
        }
        assert_eq!(compared, 21);
    }
}
