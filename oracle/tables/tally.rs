//! What was tried and how it went, by name.

use std::collections::BTreeMap;

use super::judge::Broken;

#[derive(Default)]
pub struct Tally {
    /// By name: how many the judge refused, and how many it let pass.
    tried: BTreeMap<&'static str, [usize; 2]>,
    rules: BTreeMap<Broken, usize>,
    codes: BTreeMap<u64, usize>,
    pub disagreements: usize,
}

impl Tally {
    pub fn count(&mut self, name: &'static str, verdict: Result<(), Broken>, code: u64) {
        self.tried.entry(name).or_default()[usize::from(verdict.is_ok())] += 1;
        match verdict {
            Err(rule) => *self.rules.entry(rule).or_default() += 1,
            Ok(()) => *self.codes.entry(code).or_default() += 1,
        }
    }

    /// Refused and well formed, of all names.
    pub fn totals(&self) -> [usize; 2] {
        self.tried.values().fold([0, 0], |sum, one| [sum[0] + one[0], sum[1] + one[1]])
    }

    pub fn print(&self, what: &str) {
        for (name, [refused, passed]) in &self.tried {
            println!("  {name}: {refused} refused, {passed} well formed");
        }
        for (rule, times) in &self.rules {
            println!("  refused {times} times: {rule}");
        }
        let codes: Vec<String> =
            self.codes.iter().map(|(code, times)| format!("{code}: {times}")).collect();
        println!("  answers to the well-formed, by code: {}", codes.join(", "));
        let [refused, passed] = self.totals();
        println!(
            "{what}: {refused} refused, {passed} well formed, {} disagreements",
            self.disagreements
        );
    }
}
