//! The counts of a run of the generator, by name.

pub const NAMES: [&str; 44] = [
    "scripts",
    "commands",
    "accepted",
    "refused_2",
    "refused_3",
    "refused_4",
    "refused_5",
    "refused_6",
    "refused_7",
    "refused_8",
    "refused_9",
    "malformed_pairs",
    // Graphs.
    "deep_graphs",
    "diamonds",
    "repeated_reads",
    "branch_switches",
    "unwatched_computeds",
    "reads_of_stale_computeds",
    // Owners and disposal.
    "nested_owners",
    "scopes_between_owner_and_child",
    "reruns_that_dispose",
    "disposals_in_batches",
    "disposals_of_queued_effects",
    // Writes and flushes.
    "flushes_of_two_rows_or_more",
    "flushes_that_run_nothing",
    "reads_between_writes",
    "writes_that_change_nothing",
    "effects_without_reads",
    "adds",
    "adds_that_stop_at_an_end",
    "results_at_an_end",
    // Limits: the last that passes and the first that doesn't.
    "full_of_nodes",
    "full_of_cells",
    "full_of_links",
    "height_64",
    "height_65",
    "owner_depth_16",
    "owner_depth_17",
    "cells_64",
    "cells_65",
    "nesting_16",
    "nesting_17",
    "batch_depth_64",
    "batch_depth_65",
];

pub struct Counts(pub [u64; NAMES.len()]);

impl Counts {
    pub fn new() -> Self {
        Counts([0; NAMES.len()])
    }

    pub fn add(&mut self, name: &str) {
        let place = NAMES.iter().position(|known| *known == name);
        self.0[place.expect("every count has a name")] += 1;
    }

    pub fn add_if(&mut self, name: &str, holds: bool) {
        if holds {
            self.add(name);
        }
    }

    pub fn join(&mut self, other: &Counts) {
        for (mine, theirs) in self.0.iter_mut().zip(other.0) {
            *mine += theirs;
        }
    }
}
