//! Compares the exported search for pool headers with that of the second reader.

// Each test uses its own part.
#[allow(dead_code)]
#[path = "../common"]
mod common {
    pub mod arguments;
    pub mod print;
    pub mod random;
    pub mod tally;
}
// Only a type of the earlier calls is used here.
#[allow(dead_code)]
mod exports_map;
mod exports_pool;
mod pool_cases;
mod pool_met;
// Each test uses its own part of the second reader.
#[allow(dead_code)]
#[path = "../second"]
mod second {
    pub mod codes;
    pub mod lists;
    pub mod number;
    pub mod pool;
    pub mod sheet;
    pub mod slip;
    pub mod walk;
}

use common::arguments;
use common::print::with_commas;
use common::tally::{print_table, Tally};
use pool_cases::{each_case, Case};
use pool_met::Met;
use second::pool::pool_headers;
use second::slip::{Slip, POOL_SLIPS};
use std::process::ExitCode;

/// Every number that the search can hand back.
const NUMBERS: &[u64] = &[0, 70, 71];

/// How many differing cases are printed.
const MOST_SHOWN: usize = 5;

/// Words on either side of the lent buffer, which no call may touch.
const GUARD: usize = 8;

fn main() -> ExitCode {
    arguments::run("pool", 200_000, POOL_SLIPS, |arguments| {
        let mut comparison = Comparison::new(arguments.slip);
        each_case(arguments.seed, arguments.cases, &mut |case| {
            comparison.compare(case)
        });
        report(&comparison)
    })
}

/// What came of comparing all cases.
struct Comparison {
    slip: Slip,
    cases: u64,
    numbers: Tally,
    met: Met,
    differing: u64,
    shown: Vec<String>,
    buffers: [Vec<u64>; 2],
}

impl Comparison {
    fn new(slip: Slip) -> Self {
        Comparison {
            slip,
            cases: 0,
            numbers: Tally::new("pool headers", NUMBERS.to_vec()),
            met: Met::new(),
            differing: 0,
            shown: Vec::new(),
            buffers: [Vec::new(), Vec::new()],
        }
    }

    fn compare(&mut self, case: &Case) {
        self.cases += 1;
        let (headers, room) = self.met.look(case);
        let Some(difference) = self.search(&case.image, room) else {
            return;
        };
        self.differing += 1;
        if self.shown.len() < MOST_SHOWN {
            self.shown.push(format!(
                "case {}: image length 0x{:X}, {} headers, {} places\n  {}",
                self.cases,
                case.image.len(),
                headers,
                room,
                difference
            ));
        }
    }

    /// Searches into two buffers with the same words in and around them.
    fn search(&mut self, image: &[u8], room: usize) -> Option<String> {
        for buffer in &mut self.buffers {
            buffer.clear();
            buffer.extend((0..room + 2 * GUARD).map(pattern_word));
        }
        let [their_buffer, our_buffer] = &mut self.buffers;
        let lent = GUARD..GUARD + room;
        let theirs = exports_pool::pool_headers(image, &mut their_buffer[lent.clone()]);
        let ours = pool_headers(image, &mut our_buffer[lent], self.slip);
        self.numbers.count(ours.number);
        let theirs = [theirs.number, theirs.length];
        let ours = [ours.number, ours.length];
        if theirs == ours && their_buffer == our_buffer {
            return None;
        }
        let words = their_buffer.iter().zip(our_buffer.iter());
        let place = words.into_iter().position(|(their, our)| their != our);
        Some(format!(
            "number, length: exports {:?}, second reader {:?}\n  {}",
            theirs,
            ours,
            place.map_or("the buffers are the same".to_string(), |place| format!(
                "place {}: exports 0x{:X}, second reader 0x{:X}",
                place as i64 - GUARD as i64,
                their_buffer[place],
                our_buffer[place]
            ))
        ))
    }
}

/// Never a header's offset, as it is not a multiple of 8.
fn pattern_word(place: usize) -> u64 {
    0x5A5A_5A5A_0000_0001 + 8 * place as u64
}

/// Prints the tables and every reason to fail; true if there is none.
fn report(comparison: &Comparison) -> bool {
    print_table(&[&comparison.numbers]);
    comparison.met.print();
    comparison
        .shown
        .iter()
        .for_each(|text| println!("{}", text));
    let mut reasons = Vec::new();
    if comparison.differing > 0 {
        reasons.push(format!("differs: {}", comparison.differing));
    }
    reasons.extend(comparison.numbers.reasons(NUMBERS));
    reasons.extend(comparison.met.reasons());
    reasons.iter().for_each(|reason| println!("{}", reason));
    if reasons.is_empty() {
        println!("pool: {} cases agree", with_commas(comparison.cases));
    }
    reasons.is_empty()
}
