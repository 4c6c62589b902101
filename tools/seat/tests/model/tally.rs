//! What came up.

use crate::said::Foreseen;
use std::collections::{BTreeMap, BTreeSet};

/// The numbers that the program can tell. 8 is not among them: the program lends room
/// for the largest log, and where that is full, 9, 4, 3 or "had it" comes first.
pub const REACHABLE: [u8; 13] = [1, 2, 3, 4, 5, 6, 7, 9, 10, 11, 12, 13, 14];

/// Commands that can be refused.
pub const REFUSABLE: [&str; 12] = [
    "add", "remove", "move", "column", "list", "path", "ops", "check", "meet", "bundle", "open",
    "post",
];

/// What came up in all that was played.
#[derive(Default, Debug)]
pub struct Tally {
    pub commands: usize,
    /// Commands that failed for another cause than the format's rules.
    pub failed: usize,
    pub done: BTreeMap<String, usize>,
    pub refused: BTreeMap<String, usize>,
    pub numbers: BTreeMap<u8, usize>,
    pub outcomes: BTreeMap<u8, usize>,
    /// Damaged logs that were sound all the same, and those that were not.
    pub damaged: [usize; 2],
}

impl Tally {
    pub fn count(&mut self, line: &str, foreseen: &Foreseen) {
        self.commands += 1;
        let command = line.split(' ').next().unwrap_or_default();
        let by_command = match foreseen {
            Ok(_) => &mut self.done,
            Err(number) => {
                *self.numbers.entry(*number).or_default() += 1;
                &mut self.refused
            }
        };
        *by_command.entry(command.into()).or_default() += 1;
        if let (Ok(done), "ops") = (foreseen, command) {
            for line in done.out.split(|&byte| byte == b'\n') {
                if let [.., outcome] = line {
                    *self.outcomes.entry(outcome - b'0').or_default() += 1;
                }
            }
        }
    }

    /// Whether enough came up for the comparison to mean something.
    pub fn assert_rich(&self) {
        assert!(self.commands > 3000, "few commands: {self:?}");
        let numbers: Vec<u8> = self.numbers.keys().copied().collect();
        assert_eq!(numbers, REACHABLE, "{self:?}");
        let outcomes: Vec<u8> = self.outcomes.keys().copied().collect();
        assert_eq!(outcomes, [1, 2, 3], "{self:?}");
        let refused: BTreeSet<&str> = self.refused.keys().map(String::as_str).collect();
        assert_eq!(refused, BTreeSet::from(REFUSABLE), "{self:?}");
        let done: BTreeSet<&str> = self.done.keys().map(String::as_str).collect();
        let all = REFUSABLE.into_iter().chain(["new"]);
        assert_eq!(done, all.collect(), "{self:?}");
        assert!(self.damaged.iter().all(|&count| count > 5), "{self:?}");
        assert!(self.failed > 10, "{self:?}");
    }
}
