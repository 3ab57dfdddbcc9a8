//! Memory in more than 32 runs, with virtual pages for the frames at the edges of each run.

// Each test uses its own part.
#![allow(dead_code)]

use super::case_files::CaseFiles;
use super::codes::CASE_REFUSALS;
use super::memory::{
    frames_in_runs, Memory, ENTRIES_IN_TABLE, FRAME_LIMIT, LAST_LEVEL, PAGE_BYTES,
};
use super::random::Xorshift;
use super::tally::{print_table, Tally};
use crate::second::number::Numbers;
use crate::second::sheet::MOST_RUNS;
use crate::second::slip::Slip;
use std::ops::RangeInclusive;

/// More than 32 runs: with a count of one byte, with one of two, and as many as there may be.
const CLASSES: [(&str, RangeInclusive<u64>); 3] = [
    ("33 to 127 runs", 33..=127),
    ("128 to 999 runs", 128..=MOST_RUNS - 1),
    ("1,000 runs", MOST_RUNS..=MOST_RUNS),
];

/// How often each wanted number has to come up in each class.
const LEAST_TIMES: u64 = 1000;

/// How many pages are laid for each run.
pub const EDGES: usize = 4;

const PAGE: u64 = PAGE_BYTES as u64;

/// A run's edges.
pub struct Edges {
    /// The virtual pages of four frames: the one before the run, its first, its last, and the one after it. At an end of
    /// memory, where there is none before or after, the one on the other side.
    pub pages: [u64; EDGES],
    /// The image pages of the first and the last frame; no table is in them.
    pub image_pages: [usize; 2],
}

/// Memory in many runs; each run's virtual pages follow those of the run before.
pub struct ManyRuns {
    pub memory: Memory,
    pub runs: Vec<Edges>,
}

impl ManyRuns {
    /// Lays the edges of so many runs of 1 to 4 pages each.
    fn lay(run_count: u64, mut random: Xorshift) -> Self {
        let lengths: Vec<u64> = (0..run_count).map(|_| 1 + random.below(4)).collect();
        let to_top = run_count == MOST_RUNS || random.below(4) == 0;
        let frames = frames_in_runs(&lengths, to_top, &mut random);
        let mut memory = Memory::over(frames, random);
        let ends = ends_of(&lengths);
        // The pages inside the runs are left for the tables.
        let inside = ends.iter().flat_map(|[first, last]| first + 1..*last);
        memory.keep_tables_in(inside.collect());
        let start = row_start(&mut memory.random);
        let runs = ends.into_iter().enumerate().map(|(run, ends)| {
            let start = start + (run * EDGES) as u64 * PAGE;
            lay_edges(&mut memory, start, ends)
        });
        let runs = runs.collect();
        ManyRuns { memory, runs }
    }

    /// The files of the case; the memory keeps none of its bytes.
    pub fn take_files(&mut self) -> CaseFiles {
        CaseFiles::taken_from(&mut self.memory)
    }
}

/// Hands memory of each class to `take`, at least 1,000 runs of it, the same for the same seed.
pub fn each_with_many_runs(seed: u64, take: &mut dyn FnMut(&mut ManyRuns)) {
    let mut random = Xorshift::seeded(!seed);
    let mut counts = vec![33, 127];
    while counts.iter().sum::<u64>() < LEAST_TIMES {
        counts.push(34 + random.below(93));
    }
    counts.extend([128, 210, MOST_RUNS - 1, MOST_RUNS]);
    for count in counts {
        let mut many = ManyRuns::lay(count, random);
        take(&mut many);
        random = many.memory.random;
    }
}

/// The image pages of the first and the last frame of each run.
fn ends_of(lengths: &[u64]) -> Vec<[usize; 2]> {
    let mut next = 0;
    let ends = lengths.iter().map(|length| {
        let first = next;
        next += *length as usize;
        [first, next - 1]
    });
    ends.collect()
}

/// An address of the upper half where a table of the last level begins, with room for the pages of all runs after it.
fn row_start(random: &mut Xorshift) -> u64 {
    let tables = (EDGES as u64 * MOST_RUNS).div_ceil(ENTRIES_IN_TABLE);
    let gigabyte = random.below(1 << 17);
    let table = random.below(ENTRIES_IN_TABLE - tables + 1);
    0xFFFF_8000_0000_0000 + (gigabyte << 30) + (table << 21)
}

/// Lays the pages of a run's edges from an address on.
fn lay_edges(memory: &mut Memory, start: u64, image_pages: [usize; 2]) -> Edges {
    let [first, last] = image_pages.map(|page| memory.frames[page]);
    let behind = Some(last + 1).filter(|frame| *frame < FRAME_LIMIT);
    let before = first.checked_sub(1).or(behind);
    let after = behind.or(before);
    let frames = [before, Some(first), Some(last), after];
    let mut page = start;
    let pages = frames.map(|frame| {
        let frame = frame.expect("no run is all of memory");
        let entry = match memory.random.below(2) {
            0 => memory.valid_in(frame),
            _ => memory.transition_in(frame),
        };
        memory.put_entry(page, LAST_LEVEL, entry);
        page += PAGE;
        page - PAGE
    });
    Edges { pages, image_pages }
}

/// How often each number of a call came up for accepted sheets of each class.
pub struct ByRuns {
    what: &'static str,
    tallies: [Tally; 3],
}

impl ByRuns {
    pub fn new(what: &'static str, mut numbers: Vec<u64>) -> Self {
        numbers.retain(|number| !CASE_REFUSALS.contains(number));
        ByRuns {
            what,
            tallies: CLASSES.map(|(class, _)| Tally::new(class, numbers.clone())),
        }
    }

    pub fn count(&mut self, sheet: &[u8], number: u64) {
        let run_count = run_count(sheet);
        let class = CLASSES
            .iter()
            .position(|(_, runs)| runs.contains(&run_count));
        if let (Some(class), false) = (class, CASE_REFUSALS.contains(&number)) {
            self.tallies[class].count(number);
        }
    }

    pub fn print(&self) {
        println!("{}", self.what);
        print_table(&self.tallies.each_ref());
    }

    pub fn reasons(&self, wanted: &[u64]) -> Vec<String> {
        let reasons = self
            .tallies
            .iter()
            .flat_map(|tally| tally.reasons_below(LEAST_TIMES, wanted));
        reasons
            .map(|reason| format!("{}, {}", self.what, reason))
            .collect()
    }
}

/// The run count of a sheet's header, 0 if it has none.
fn run_count(sheet: &[u8]) -> u64 {
    let mut numbers = Numbers::new(sheet, Slip::None);
    let [_, _, count] = [(); 3].map(|()| numbers.read());
    count.unwrap_or(0)
}
