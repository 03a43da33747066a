//! Counts tests and what the calls came to.

use std::collections::BTreeMap;

use crate::exports::{Export, Outcome, EXPORTS};

/// How many failed tests are shown.
const SHOWN: u64 = 5;

#[derive(Default)]
pub struct Tally {
    passed: u64,
    failed: u64,
    counts: BTreeMap<(&'static str, Outcome), u64>,
}

impl Tally {
    /// Counts a test: it failed if there are complaints.
    pub fn test(&mut self, complaints: &[String], title: impl FnOnce() -> String) {
        if complaints.is_empty() {
            self.passed += 1;
            return;
        }
        self.failed += 1;
        if self.failed <= SHOWN {
            println!("FAILED {}", title());
            for complaint in complaints {
                println!("    {complaint}");
            }
        }
    }

    pub fn count(&mut self, export: &Export, outcome: Outcome) {
        *self.counts.entry((export.name, outcome)).or_default() += 1;
    }

    fn count_of(&self, export: &Export, outcome: Outcome) -> u64 {
        let count = self.counts.get(&(export.name, outcome));
        count.copied().unwrap_or(0)
    }

    /// Prints how often each outcome came up; one that never did is a failed test.
    pub fn test_coverage(&mut self) {
        println!(
            "calls that agreed: ok, refusals as number.table, verdicts or outcomes as =number"
        );
        for export in &EXPORTS {
            let counted =
                |outcome| format!("{} {}", label(outcome), self.count_of(export, outcome));
            let words: Vec<String> = export.outcomes().into_iter().map(counted).collect();
            println!("{}: {}", export.name, words.join(", "));
        }
        for export in &EXPORTS {
            for outcome in export.outcomes() {
                let missing = self.count_of(export, outcome) == 0;
                let complaints = missing.then(|| "never came up".to_string());
                self.test(complaints.as_slice(), || {
                    format!("coverage of {}: {}", export.name, label(outcome))
                });
            }
        }
    }

    /// Prints the last line; true if nothing failed.
    pub fn close(self) -> bool {
        println!("{} passed, {} failed", self.passed, self.failed);
        self.failed == 0
    }
}

fn label(outcome: Outcome) -> String {
    match outcome {
        Outcome::Success => "ok".to_string(),
        Outcome::Refused(refusal) => format!("{}.{}", refusal.number, refusal.table),
        Outcome::Verdict(verdict) => format!("={verdict}"),
    }
}
