//! By which entries with a reserved bit the calls were refused.

// Each test uses its own part.
#![allow(dead_code)]

use super::codes::{PLACES, RESERVED_BIT_SET};
use super::tally::{print_table, Tally};
use crate::second::slip::Slip;
use crate::second::walk::{resolve, Answer, Files};
use std::collections::HashSet;

/// The levels of mode 0 above the last: the directory's entries, those of 1 GiB pages and those of 2 MiB pages.
const LEVELS: &[u64] = &[1, 2, 3];

const PAGE: u64 = 4096;

/// How often a call of mode 0 was refused by the entries of each level.
pub struct ByLevel {
    times: Tally,
}

impl ByLevel {
    pub fn new(call: &'static str) -> Self {
        ByLevel {
            times: Tally::new(call, LEVELS.to_vec()),
        }
    }

    /// Counts the levels that are found for a call's number, if it is 33.
    pub fn count<L: IntoIterator<Item = u64>>(&mut self, number: u64, levels: impl FnOnce() -> L) {
        if number == RESERVED_BIT_SET {
            levels()
                .into_iter()
                .for_each(|level| self.times.count(level));
        }
    }

    pub fn print(calls: &[&ByLevel]) {
        println!("33 by the level of its entry");
        let tallies: Vec<&Tally> = calls.iter().map(|call| &call.times).collect();
        print_table(&tallies);
    }

    pub fn reasons(&self) -> Vec<String> {
        let rare = self.times.reasons(LEVELS).into_iter();
        rare.map(|reason| format!("33 by level, {}", reason))
            .collect()
    }
}

/// The level of the entry whose reserved bit refuses an address, if one does.
pub fn reserved_level(files: Files, address: u64) -> Option<u64> {
    level_in(&resolve(files, address, Slip::None))
}

/// The same for several addresses, each level once.
pub fn reserved_levels(files: Files, addresses: &[u64]) -> HashSet<u64> {
    let levels = addresses
        .iter()
        .map(|address| reserved_level(files, *address));
    levels.flatten().collect()
}

/// The level for the first refused byte of a read.
pub fn reserved_level_of_read(files: Files, start: u64, n: u64) -> Option<u64> {
    let mut address = start;
    loop {
        let answer = resolve(files, address, Slip::None);
        if !PLACES.contains(&answer.number) {
            return level_in(&answer);
        }
        address = (address | (PAGE - 1)).checked_add(1)?;
        if address - start >= n {
            return None;
        }
    }
}

/// Each walk before the last was read down to its last level.
fn level_in(answer: &Answer) -> Option<u64> {
    let read_before = 4 * u64::from(answer.prototypes);
    (answer.number == RESERVED_BIT_SET).then(|| answer.entries - read_before)
}
