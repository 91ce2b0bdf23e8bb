//! What was checked, what failed, and what the generated inputs reached.

use oracle::reading::{Reply, LAST_KIND};
use std::collections::BTreeSet;

/// Failures beyond this many are counted and not printed.
const PRINTED: u64 = 20;

/// Counts of checks, and the numbers that replies have shown.
#[derive(Default)]
pub struct Tally {
    passed: u64,
    failed: u64,
    refusals: BTreeSet<u64>,
    buffers: BTreeSet<u64>,
    details: BTreeSet<u64>,
    kinds: BTreeSet<u32>,
}

impl Tally {
    /// Counts one check; a failed one is printed with what it was about.
    pub fn expect(&mut self, holds: bool, about: impl FnOnce() -> String) {
        if holds {
            self.passed += 1;
            return;
        }
        self.failed += 1;
        if self.failed <= PRINTED {
            println!("failed: {}", about());
        }
    }

    /// Counts one check that two values agree.
    pub fn equal<T: PartialEq + std::fmt::Debug>(&mut self, is: T, should_be: T, about: &str) {
        self.expect(is == should_be, || {
            format!("{about}: is {is:?}, should be {should_be:?}")
        });
    }

    /// Notes the refusal, buffer or detail that a reply shows.
    pub fn note_reply(&mut self, reply: &Reply) {
        self.refusals.insert(reply[0]);
        match reply[..] {
            [3, _, detail, ..] => drop(self.details.insert(detail)),
            [5, buffer, _] => drop(self.buffers.insert(buffer)),
            _ => {}
        }
    }

    /// Notes the kinds of a reading's tokens.
    pub fn note_kinds(&mut self, kinds: impl Iterator<Item = u32>) {
        self.kinds.extend(kinds);
    }

    /// "What comes first in a reply", "Details", "Kinds": all reached, but "66, `Arrow`".
    pub fn expect_all_reached(&mut self) {
        let refusals = self.refusals.clone().into_iter().collect();
        self.equal(refusals, (0..=7).collect::<Vec<_>>(), "replies reached");
        let details = self.details.clone().into_iter().collect();
        self.equal(details, (1..=12).collect::<Vec<_>>(), "details reached");
        let buffers = self.buffers.clone().into_iter().collect();
        self.equal(buffers, (1..=6).collect::<Vec<_>>(), "buffers reached");
        let kinds = self.kinds.clone().into_iter().collect();
        let spelled = (0..=LAST_KIND).filter(|kind| *kind != 66);
        self.equal(kinds, spelled.collect::<Vec<_>>(), "kinds reached");
    }

    /// Prints one line for a part of the test: how many checks there are so far.
    pub fn end_of_part(&self, part: &str) {
        println!("{part}: {} checks so far", self.passed + self.failed);
    }

    /// Prints the last line; true if nothing failed.
    pub fn conclude(&self) -> bool {
        println!("{} passed, {} failed", self.passed, self.failed);
        self.failed == 0
    }
}
