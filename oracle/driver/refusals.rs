//! Refusals 2 to 9 (document 01, Nine refusals), tried in number order: one function each.
//! Refusal 1 is about lent tables and never arises here. A rule may count on the ones before it.

use super::books::{Books, Kind, reserve_for};
use super::command::{Command, NO_OWNER};
use super::formula::{Formula, named};

pub const MOST_HEIGHT: usize = 64;
pub const MOST_OWNER_DEPTH: usize = 16;
pub const MOST_BATCH_DEPTH: usize = 64;

type Rule = fn(&Books, &Command) -> bool;

const RULES: [(u8, Rule); 7] = [
    (3, names_a_wrong_node),
    (4, names_a_gone_node),
    (5, breaks_a_formula_rule),
    (6, goes_too_high_or_deep),
    (7, finds_no_room),
    (8, leaves_the_batch_depths),
    (9, lacks_log_rows),
];

/// The command, or the number of its refusal.
pub fn judge(books: &Books, words: &[i64]) -> Result<Command, u8> {
    // 2: unknown command code or wrong word count.
    let command = Command::of(words).ok_or(2)?;
    match RULES.iter().find(|(_, applies)| applies(books, &command)) {
        Some((number, _)) => Err(*number),
        None => Ok(command),
    }
}

/// 3: node or owner number unknown, or of a kind the command doesn't take.
fn names_a_wrong_node(books: &Books, command: &Command) -> bool {
    let is_not = |number: i64, kinds: &[Kind]| match books.find(number) {
        Some(entry) => !kinds.contains(&entry.kind),
        None => true,
    };
    match *command {
        Command::Set { node, .. } | Command::Add { node, .. } => is_not(node, &[Kind::Signal]),
        Command::Read { node } => is_not(node, &[Kind::Signal, Kind::Computed]),
        Command::Dispose { node } => is_not(node, &[Kind::Effect, Kind::Scope]),
        Command::Effect { owner, .. } | Command::Scope { owner } => {
            owner != NO_OWNER && is_not(owner, &[Kind::Effect, Kind::Scope])
        }
        _ => false,
    }
}

/// 4: the node to dispose, or the owner, is gone.
fn names_a_gone_node(books: &Books, command: &Command) -> bool {
    let is_gone = |number: i64| books.find(number).is_some_and(|entry| entry.gone);
    match *command {
        Command::Dispose { node } => is_gone(node),
        Command::Effect { owner, .. } | Command::Scope { owner } => is_gone(owner),
        _ => false,
    }
}

/// 5: the formula breaks a rule: its shape, or a read of anything but a signal or computed.
fn breaks_a_formula_rule(books: &Books, command: &Command) -> bool {
    let Some(cells) = command.cells() else {
        return false;
    };
    let can_be_read = |number: i64| {
        books.find(number).is_some_and(|entry| matches!(entry.kind, Kind::Signal | Kind::Computed))
    };
    Formula::of(cells).is_none() || !named(cells).all(can_be_read)
}

/// 6: computed of height over 64, or owner depth over 16.
fn goes_too_high_or_deep(books: &Books, command: &Command) -> bool {
    match command {
        Command::Computed { cells } => books.height_of(cells) > MOST_HEIGHT,
        Command::Effect { owner, .. } | Command::Scope { owner } => {
            books.depth_under(*owner) > MOST_OWNER_DEPTH
        }
        _ => false,
    }
}

/// 7: node table full, too few cells left, or the reserve would exceed the link slots.
fn finds_no_room(books: &Books, command: &Command) -> bool {
    let makes_a_node = matches!(
        command,
        Command::Signal { .. }
            | Command::Computed { .. }
            | Command::Effect { .. }
            | Command::Scope { .. }
    );
    let cells = command.cells().unwrap_or(&[]);
    let owned = command.owner().is_some_and(|owner| owner != NO_OWNER);
    makes_a_node
        && (books.nodes.len() + 1 > books.room.nodes
            || books.cells_used() + cells.len() > books.room.cells
            || books.reserve() + reserve_for(cells, owned) > books.room.links)
}

/// 8: end at depth 0, or start at depth 64.
fn leaves_the_batch_depths(books: &Books, command: &Command) -> bool {
    match command {
        Command::Start => books.depth >= MOST_BATCH_DEPTH,
        Command::End => books.depth == 0,
        _ => false,
    }
}

/// 9: too few log rows. A new effect wants 1; what flushes, as many as effects are live.
fn lacks_log_rows(books: &Books, command: &Command) -> bool {
    let wanted = match command {
        Command::Effect { .. } => 1,
        Command::Set { .. } | Command::Add { .. } if books.depth == 0 => books.live_effects(),
        Command::End if books.depth == 1 => books.live_effects(),
        _ => 0,
    };
    wanted > books.room.rows
}
