//! Compares the exported time call with that of the second reader, its doubles bit by bit.

#[path = "../common"]
mod common {
    pub mod arguments;
    pub mod case_files;
    pub mod codes;
    pub mod groups;
    pub mod many_runs;
    pub mod memory;
    pub mod print;
    pub mod random;
    pub mod small_case;
    pub mod tally;
}
mod exports_times;
// Each test uses its own part of the second reader.
#[allow(dead_code)]
#[path = "../second"]
mod second {
    pub mod bytes;
    pub mod codes;
    pub mod number;
    pub mod sheet;
    pub mod slip;
    pub mod times;
    pub mod walk;
}
mod times_cases;
mod times_met;

use common::arguments;
use common::case_files::CaseFiles;
use common::codes::{CASE_REFUSALS, NOT_CANONICAL, PAGE_REFUSALS};
use common::many_runs::ByRuns;
use common::print::{hex, with_commas};
use common::tally::{print_table, Tally};
use second::slip::{Slip, TIME_SLIPS};
use second::times::{read_time, Time};
use second::walk::Files;
use std::process::ExitCode;
use times_cases::{each_field, each_field_about_runs, Stated, STATED, STATED_ADDRESS};
use times_met::Met;

/// Every number that the time call can hand back.
fn time_numbers() -> Vec<u64> {
    let of_field = [&[NOT_CANONICAL], PAGE_REFUSALS].concat();
    [&[0], CASE_REFUSALS, &of_field, &[60, 61]].concat()
}

/// How many differing cases are printed.
const MOST_SHOWN: usize = 5;

fn main() -> ExitCode {
    arguments::run("times", 100_000, TIME_SLIPS, |arguments| {
        let mut comparison = Comparison::new(arguments.slip);
        let mut compare = |files: &CaseFiles, address| comparison.compare(files, address);
        each_field(arguments.seed, arguments.cases, &mut compare);
        each_field_about_runs(arguments.seed, &mut compare);
        report(&comparison)
    })
}

/// What came of comparing all cases.
struct Comparison {
    slip: Slip,
    cases: u64,
    times: Tally,
    times_by_runs: ByRuns,
    met: Met,
    differing: u64,
    shown: Vec<String>,
}

impl Comparison {
    fn new(slip: Slip) -> Self {
        Comparison {
            slip,
            cases: 0,
            times: Tally::new("time", time_numbers()),
            times_by_runs: ByRuns::new("time", time_numbers()),
            met: Met::new(),
            differing: 0,
            shown: Vec::new(),
        }
    }

    fn compare(&mut self, files: &CaseFiles, address: u64) {
        self.cases += 1;
        let theirs = exported_time(files.lent(), address);
        let ours = read_time(files.lent(), address, self.slip);
        self.times.count(ours.number);
        self.times_by_runs.count(&files.sheet, ours.number);
        if !CASE_REFUSALS.contains(&ours.number) {
            self.met.look(files.lent(), address);
        }
        if theirs == ours {
            return;
        }
        self.differing += 1;
        if self.shown.len() < MOST_SHOWN {
            self.shown.push(format!(
                "case {}: sheet [{}] image length 0x{:X} pagefile length 0x{:X}{}{}{}",
                self.cases,
                hex(&files.sheet),
                files.image.len(),
                files.pagefile.len(),
                format_args!("\n  time at 0x{:016X}", address),
                format_args!("\n  exports {}", time_text(&theirs)),
                format_args!("\n  second reader {}", time_text(&ours)),
            ));
        }
    }
}

fn exported_time(files: Files, address: u64) -> Time {
    let said = exports_times::read_time(files.sheet, files.image, files.pagefile, address);
    Time {
        number: said.number,
        seconds: said.time.seconds.to_bits(),
        ticks: said.time.ticks.to_bits(),
    }
}

/// Each double with its bits, by which -0.0 and 0.0 are told apart.
fn time_text(time: &Time) -> String {
    let [seconds, ticks] = [time.seconds, time.ticks]
        .map(|bits| format!("{:?} (0x{:016X})", f64::from_bits(bits), bits));
    format!("{}, seconds {}, ticks {}", time.number, seconds, ticks)
}

/// Prints the tables and every reason to fail; true if there is none.
fn report(comparison: &Comparison) -> bool {
    print_table(&[&comparison.times]);
    comparison.times_by_runs.print();
    comparison.met.print();
    comparison
        .shown
        .iter()
        .for_each(|text| println!("{}", text));
    let mut reasons = Vec::new();
    if comparison.differing > 0 {
        reasons.push(format!("differs: {}", comparison.differing));
    }
    reasons.extend(comparison.times.reasons(&time_numbers()));
    reasons.extend(comparison.times_by_runs.reasons(&[0, 23]));
    reasons.extend(comparison.met.reasons());
    STATED
        .iter()
        .for_each(|stated| judge_stated(stated, &mut reasons));
    reasons.iter().for_each(|reason| println!("{}", reason));
    if reasons.is_empty() {
        println!("times: {} cases agree", with_commas(comparison.cases));
    }
    reasons.is_empty()
}

/// Both readers against a time that a paper states.
fn judge_stated(stated: &Stated, reasons: &mut Vec<String>) {
    let files = stated.files();
    let wanted = Time {
        number: stated.number,
        seconds: stated.seconds.to_bits(),
        ticks: stated.rest.to_bits(),
    };
    for (whose, got) in [
        ("exports", exported_time(files.lent(), STATED_ADDRESS)),
        (
            "second reader",
            read_time(files.lent(), STATED_ADDRESS, Slip::None),
        ),
    ] {
        if got != wanted {
            let (got, wanted) = (time_text(&got), time_text(&wanted));
            reasons.push(format!(
                "{} ticks: {} {} instead of {}",
                stated.ticks, whose, got, wanted
            ));
        }
    }
}
