//! Compares the exported calls on a case's sheet with those of the second reader.

#[path = "../common"]
mod common {
    pub mod arguments;
    pub mod bad_forms;
    pub mod codes;
    pub mod groups;
    pub mod print;
    pub mod random;
    pub mod tally;
}
// Only the types of the earlier calls are used here.
#[allow(dead_code)]
mod exports_map;
mod exports_runs;
mod run_cases;
// Each test uses its own part of the second reader.
#[allow(dead_code)]
#[path = "../second"]
mod second {
    pub mod number;
    pub mod runs;
    pub mod sheet;
    pub mod slip;
}

use common::arguments;
use common::bad_forms::{
    judge_stated, FormTimes, SHEET, SHEET_WITH_MODE, STATED_SHEETS, STATED_WITH_MODE,
};
use common::codes::CASE_REFUSALS;
use common::print::{hex, with_commas};
use common::tally::{print_table, Tally};
use run_cases::{each_question, Question};
use second::runs::{case_runs, image_length, CaseRead, NUMBERS_A_RUN};
use second::sheet::read_sheet;
use second::slip::{Slip, CASE_SLIPS, FORM_SLIPS};
use std::process::ExitCode;

/// Every number that the call on the runs can hand back.
fn case_numbers() -> Vec<u64> {
    [&[0], CASE_REFUSALS, &[53]].concat()
}

/// Every number that the call on the image's length can hand back: the lengths of the files are not judged.
const LENGTH_NUMBERS: &[u64] = &[0, 10, 11, 12, 13, 14, 18];

/// Of cases that the sheet's check accepts, how the buffer stands to what the runs take.
const ROOMS: &[u64] = &[TOO_SHORT, ONE_SHORT, EXACT, LONGER];
const TOO_SHORT: u64 = 0;
const ONE_SHORT: u64 = 1;
const EXACT: u64 = 2;
const LONGER: u64 = 3;

/// Run counts of cases told; 2 stands for 2 to 32, 33 for 33 to 999.
const RUN_COUNTS: &[u64] = &[1, 2, 33, 1000];

/// The modes of cases told.
const MODES: &[u64] = &[0, 1, 2];

/// Places of cases told in mode 2; 1 stands for 1 to 126.
const PLACES: &[u64] = &[0, 1, 127];

/// P1 of the paper: sheet, image length, directory page, numbers of its runs.
const P1: (&[u8], u64, u64, [u64; 6]) = (
    &[
        0x01, 0x87, 0x03, 0x02, 0x01, 0x9E, 0x01, 0x61, 0xF0, 0xFD, 0x0F,
    ],
    0x3FF8E000,
    0x187,
    [1, 0x9E, 0, 0x100, 0x3FEF0, 0x9E],
);

/// How many differing cases are printed.
const MOST_SHOWN: usize = 5;

/// Words behind the lent buffer, which no call may touch.
const GUARD: usize = 8;

fn main() -> ExitCode {
    let slips = [CASE_SLIPS, FORM_SLIPS].concat();
    // Half of them are of edition 1.
    arguments::run("runs", 200_000, &slips, |arguments| {
        let mut comparison = Comparison::new(arguments.slip);
        each_question(arguments.seed, arguments.cases, &mut |question| {
            comparison.compare(question)
        });
        report(&comparison)
    })
}

/// What came of comparing all cases.
struct Comparison {
    slip: Slip,
    cases: u64,
    numbers: Tally,
    lengths: Tally,
    numbers_by_forms: FormTimes,
    lengths_by_forms: FormTimes,
    numbers_with_mode: FormTimes,
    lengths_with_mode: FormTimes,
    rooms: Tally,
    run_counts: Tally,
    modes: Tally,
    places: Tally,
    differing: u64,
    shown: Vec<String>,
    buffers: [Vec<u64>; 2],
}

impl Comparison {
    fn new(slip: Slip) -> Self {
        Comparison {
            slip,
            cases: 0,
            numbers: Tally::new("case", case_numbers()),
            lengths: Tally::new("image length", LENGTH_NUMBERS.to_vec()),
            numbers_by_forms: FormTimes::new("case", &SHEET),
            lengths_by_forms: FormTimes::new("image length", &SHEET),
            numbers_with_mode: FormTimes::new("case", &SHEET_WITH_MODE),
            lengths_with_mode: FormTimes::new("image length", &SHEET_WITH_MODE),
            rooms: Tally::new("room", ROOMS.to_vec()),
            run_counts: Tally::new("runs told", RUN_COUNTS.to_vec()),
            modes: Tally::new("modes told", MODES.to_vec()),
            places: Tally::new("places told", PLACES.to_vec()),
            differing: 0,
            shown: Vec::new(),
            buffers: [Vec::new(), Vec::new()],
        }
    }

    fn compare(&mut self, question: &Question) {
        self.cases += 1;
        let differences = [self.runs(question), self.length(&question.sheet)];
        let differences: String = differences.into_iter().flatten().collect();
        if differences.is_empty() {
            return;
        }
        self.differing += 1;
        if self.shown.len() < MOST_SHOWN {
            let text = case_text(self.cases, question);
            self.shown.push(text + &differences);
        }
    }

    /// Tells the runs into two buffers with the same words in and behind them.
    fn runs(&mut self, question: &Question) -> Option<String> {
        let room = question.room;
        for buffer in &mut self.buffers {
            buffer.clear();
            buffer.extend((0..room + GUARD).map(pattern_word));
        }
        let [their_buffer, our_buffer] = &mut self.buffers;
        let theirs = exports_runs::case_runs(
            &question.sheet,
            question.image_length,
            question.pagefile_length,
            &mut their_buffer[..room],
        );
        let ours = case_runs(
            &question.sheet,
            question.image_length,
            question.pagefile_length,
            &mut our_buffer[..room],
            self.slip,
        );
        let (theirs, ours) = (of_export(&theirs), of_second(&ours));
        let place = (0..room + GUARD).find(|place| their_buffer[*place] != our_buffer[*place]);
        let words = place.map(|place| [their_buffer[place], our_buffer[place]]);
        self.count(question, ours);
        (theirs != ours || place.is_some()).then(|| {
            format!(
                "\n  number, directory, mode, place, length: exports {:?}, second reader {:?}\n  word {:?}: {:?}",
                theirs, ours, place, words
            )
        })
    }

    fn count(&mut self, question: &Question, [number, _, mode, place, length]: Fields) {
        self.numbers.count(number);
        for forms in [&mut self.numbers_by_forms, &mut self.numbers_with_mode] {
            forms.count(&question.sheet, number, length);
        }
        if number == 0 {
            self.modes.count(mode);
            if mode == 2 {
                self.places.count(match place {
                    1..=126 => 1,
                    _ => place,
                });
            }
            self.run_counts.count(match length {
                2..=32 => 2,
                33..=999 => 33,
                _ => length,
            });
        }
        if number == 0 || number == 53 {
            let wanted = read_sheet(&question.sheet, Slip::None)
                .map_or(0, |case| NUMBERS_A_RUN * case.runs.len());
            self.rooms
                .count(match question.room as i64 - wanted as i64 {
                    0 => EXACT,
                    -1 => ONE_SHORT,
                    more if more > 0 => LONGER,
                    _ => TOO_SHORT,
                });
        }
    }

    fn length(&mut self, sheet: &[u8]) -> Option<String> {
        let theirs = exports_runs::image_length(sheet);
        let ours = image_length(sheet, self.slip);
        self.lengths.count(ours.number);
        for forms in [&mut self.lengths_by_forms, &mut self.lengths_with_mode] {
            forms.count(sheet, ours.number, ours.length);
        }
        let theirs = [theirs.number, theirs.length];
        let ours = [ours.number, ours.length];
        (theirs != ours).then(|| {
            format!(
                "\n  image length: exports {:?}, second reader {:?}",
                theirs, ours
            )
        })
    }
}

/// Number, directory, mode, place, length.
type Fields = [u64; 5];

fn of_export(read: &exports_runs::CaseRead) -> Fields {
    [
        read.number,
        read.directory,
        read.mode,
        read.place,
        read.length,
    ]
}

fn of_second(read: &CaseRead) -> Fields {
    [
        read.number,
        read.directory,
        read.mode,
        read.place,
        read.length,
    ]
}

/// More than any number of a run.
fn pattern_word(place: usize) -> u64 {
    0x5A5A_5A5A_0000_0000 + place as u64
}

fn case_text(case: u64, question: &Question) -> String {
    format!(
        "case {}: sheet [{}] image length 0x{:X} pagefile length 0x{:X}, room for {} numbers",
        case,
        hex(&question.sheet),
        question.image_length,
        question.pagefile_length,
        question.room
    )
}

/// Prints the tables and every reason to fail; true if there is none.
fn report(comparison: &Comparison) -> bool {
    print_table(&[&comparison.numbers, &comparison.lengths]);
    print_table(&[&comparison.rooms, &comparison.run_counts]);
    print_table(&[&comparison.modes, &comparison.places]);
    let by_forms = [
        &comparison.numbers_by_forms,
        &comparison.lengths_by_forms,
        &comparison.numbers_with_mode,
        &comparison.lengths_with_mode,
    ];
    by_forms.iter().for_each(|forms| forms.print());
    comparison
        .shown
        .iter()
        .for_each(|text| println!("{}", text));
    let mut reasons = Vec::new();
    if comparison.differing > 0 {
        reasons.push(format!("differs: {}", comparison.differing));
    }
    reasons.extend(comparison.numbers.reasons(&case_numbers()));
    reasons.extend(comparison.lengths.reasons(LENGTH_NUMBERS));
    reasons.extend(comparison.rooms.reasons(ROOMS));
    reasons.extend(comparison.run_counts.reasons(RUN_COUNTS));
    reasons.extend(comparison.modes.reasons(MODES));
    reasons.extend(comparison.places.reasons(PLACES));
    reasons.extend(by_forms.iter().flat_map(|forms| forms.reasons()));
    judge_p1(&mut reasons);
    judge_stated_sheets(&mut reasons);
    reasons.iter().for_each(|reason| println!("{}", reason));
    if reasons.is_empty() {
        println!("runs: {} cases agree", with_commas(comparison.cases));
    }
    reasons.is_empty()
}

/// Both readers against the sheet that the paper states.
fn judge_p1(reasons: &mut Vec<String>) {
    let (sheet, length, directory, numbers) = P1;
    let mut buffers = [[0; 6], [0; 6]];
    let [their_buffer, our_buffer] = &mut buffers;
    let theirs = exports_runs::case_runs(sheet, length, 0, their_buffer);
    let ours = case_runs(sheet, length, 0, our_buffer, Slip::None);
    let asked = exports_runs::image_length(sheet);
    let answers = [of_export(&theirs), of_second(&ours)];
    let lengths = [asked.length, image_length(sheet, Slip::None).length];
    if answers != [[0, directory, 0, 0, 2]; 2] || buffers != [numbers; 2] || lengths != [length; 2]
    {
        reasons.push(format!("P1: {:?} {:?} {:?}", answers, buffers, lengths));
    }
}

/// Both readers against sheets that are refused as stated.
fn judge_stated_sheets(reasons: &mut Vec<String>) {
    for stated in STATED_SHEETS.iter().chain(&STATED_WITH_MODE) {
        let sheet = stated.0;
        let mut judge = |whose, answer| judge_stated(whose, stated, answer, reasons);
        let theirs = exports_runs::case_runs(sheet, 0, 0, &mut []);
        let ours = case_runs(sheet, 0, 0, &mut [], Slip::None);
        // Beside a refusal all but its position are 0.
        let rest = theirs.directory | theirs.mode | theirs.place;
        judge("exported case", [theirs.number, theirs.length, rest]);
        let rest = ours.directory | ours.mode | ours.place;
        judge("second case", [ours.number, ours.length, rest]);
        let theirs = exports_runs::image_length(sheet);
        let ours = image_length(sheet, Slip::None);
        judge("exported image length", [theirs.number, theirs.length, 0]);
        judge("second image length", [ours.number, ours.length, 0]);
    }
}
