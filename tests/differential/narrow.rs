//! Compares every exported call on cases of modes 1 and 2, the 32-bit profiles, with that of the second reader.
//! Compiled with `--cfg alone` the second reader without a slip stands for the exports, so that its slips can be tried
//! without them.

// Each test uses its own part.
#[allow(dead_code)]
#[path = "../common"]
mod common {
    pub mod arguments;
    pub mod bad_forms;
    pub mod case_files;
    pub mod codes;
    pub mod groups;
    pub mod memory;
    pub mod print;
    pub mod random;
    pub mod reserved;
    pub mod tally;
}
#[cfg(not(alone))]
#[allow(dead_code)]
mod exports;
#[cfg(not(alone))]
mod exports_lists;
#[cfg(not(alone))]
mod exports_map;
#[cfg(not(alone))]
mod exports_runs;
#[cfg(not(alone))]
mod exports_times;
#[cfg(not(alone))]
mod exports_writer;
mod narrow_answers;
mod narrow_cases;
#[cfg(not(alone))]
mod narrow_exports;
mod narrow_memory;
mod narrow_met;
// Each test uses its own part of the second reader.
#[allow(dead_code)]
#[path = "../second"]
mod second {
    pub mod bytes;
    pub mod codes;
    pub mod lists;
    pub mod map;
    pub mod number;
    pub mod runs;
    pub mod sheet;
    pub mod sheet_writer;
    pub mod slip;
    pub mod times;
    pub mod walk;
}

use common::arguments;
use common::bad_forms::{judge_stated, FormTimes, SHEET_WITH_MODE, STATED_WITH_MODE};
use common::case_files::CaseFiles;
use common::codes::{CASE_REFUSALS, NARROW_CODES};
use common::print::{hex, with_commas};
use common::tally::{print_table, Tally};
use narrow_answers::{Answers, Calls, Second};
use narrow_cases::{each_bad_form, each_damaged_sheet, each_question, Question, Stated, STATED};
use narrow_met::Met;
use second::map::{read_map, Map};
use second::sheet::{check_sheet, read_sheet, PAE, PLAIN};
use second::slip::{Slip, NARROW_SLIPS, RESERVED_SLIPS};
use second::walk::Files;
use std::collections::HashSet;
use std::process::ExitCode;

#[cfg(not(alone))]
const EXPORTS: narrow_exports::Exports = narrow_exports::Exports;
#[cfg(alone)]
const EXPORTS: Second = Second(Slip::None);

/// Faults of other layers that the cases here meet too.
const OTHER_SLIPS: &[Slip] = &[
    Slip::EditionTwoRefused,
    Slip::ModeZeroTaken,
    Slip::PlaceOf128Taken,
    Slip::PlaceOf127Refused,
    Slip::PlaceInPlainTaken,
    Slip::ModePositionDropped,
    Slip::PlacePositionDropped,
    Slip::ModeAndPlaceSwapped,
    Slip::EditionTwoForModeZero,
    Slip::GivenPlaceOf128Taken,
    Slip::GivenPlaceInPlainTaken,
    Slip::CodeThirtyThreeUnlisted,
    Slip::CodeThirtyFourUnlisted,
];

/// The most entries that an address takes in modes 1 and 2.
const MOST_ENTRIES: [u64; 2] = [2, 3];

/// How many differing cases are printed.
const MOST_SHOWN: usize = 5;

fn main() -> ExitCode {
    let slips = [NARROW_SLIPS, RESERVED_SLIPS, OTHER_SLIPS].concat();
    arguments::run("narrow", 100_000, &slips, |arguments| {
        let mut comparison = Comparison::new(arguments.slip);
        let mut compare = |mode, files: &CaseFiles, question: &Question| {
            comparison.compare(mode, files, question);
        };
        each_question(arguments.seed, arguments.cases, &mut compare);
        each_bad_form(arguments.seed, &mut compare);
        each_damaged_sheet(arguments.seed, &mut compare);
        report(&comparison)
    })
}

/// The calls, and every number that each can hand back in mode 1 or 2; a page of zeros cannot arise.
fn calls(mode: u64) -> [(&'static str, Vec<u64>); 11] {
    let codes = NARROW_CODES[mode as usize - 1];
    let of_bytes = [&[20], &codes[1..], CASE_REFUSALS].concat();
    let with = |numbers: &[u64]| [numbers, CASE_REFUSALS].concat();
    [
        ("resolve", [&[1], &of_bytes[..]].concat()),
        ("read", [&[0, 45], &of_bytes[..]].concat()),
        ("map", with(&[0, 40, 44])),
        ("codes in maps", codes.to_vec()),
        ("lookup", [codes, &[20, 41]].concat()),
        ("time", [&[0, 60, 61], &of_bytes[..]].concat()),
        ("block", with(&[37])),
        ("list", with(&[37])),
        ("case", with(&[0, 53])),
        ("image length", vec![0, 10, 11, 12, 13, 14, 18]),
        ("write sheet", vec![0, 12, 13, 17]),
    ]
}

/// What came of comparing all cases.
struct Comparison {
    slip: Slip,
    /// By the mode for which the case was made.
    cases: [u64; 2],
    tallies: [Vec<Tally>; 2],
    most_entries: [u64; 2],
    bad_forms: FormTimes,
    met: Met,
    differing: u64,
    shown: Vec<String>,
}

impl Comparison {
    fn new(slip: Slip) -> Self {
        let tallies = |mode| {
            calls(mode)
                .map(|(call, numbers)| Tally::new(call, numbers))
                .into()
        };
        Comparison {
            slip,
            cases: [0; 2],
            tallies: [tallies(PLAIN), tallies(PAE)],
            most_entries: [0; 2],
            bad_forms: FormTimes::new("case", &SHEET_WITH_MODE),
            met: Met::new(),
            differing: 0,
            shown: Vec::new(),
        }
    }

    fn compare(&mut self, mode: u64, files: &CaseFiles, question: &Question) {
        self.cases[mode as usize - 1] += 1;
        let theirs = Answers::of(&EXPORTS, files.lent(), question);
        let ours = Answers::of(&Second(self.slip), files.lent(), question);
        self.count(mode, files.lent(), question, &ours);
        if theirs == ours {
            return;
        }
        self.differing += 1;
        if self.shown.len() < MOST_SHOWN {
            let text = case_text(files, question);
            self.shown.push(text + &theirs.differences(&ours));
        }
    }

    /// Counts what the second reader says, but for sheets that are good in another mode.
    fn count(&mut self, mode: u64, files: Files, question: &Question, ours: &Answers) {
        let [number, .., length] = ours.case;
        self.bad_forms.count(files.sheet, number, length);
        if read_sheet(files.sheet, Slip::None).is_ok_and(|case| case.mode != mode) {
            return;
        }
        let which = mode as usize - 1;
        let map_bytes = &ours.map_bytes[..ours.map_bytes.len().min(ours.map[1] as usize)];
        let map = match ours.map[0] {
            // Only a slip writes a map that cannot be read.
            0 => read_map(map_bytes).unwrap_or_default(),
            _ => Map::default(),
        };
        let codes: HashSet<u64> = map.extents.iter().map(|extent| extent.code).collect();
        let said: [Vec<u64>; 11] = [
            vec![ours.resolved[0]],
            vec![ours.read[0]],
            vec![ours.map[0]],
            codes.into_iter().collect(),
            ours.lookups.iter().map(|found| found[0]).collect(),
            vec![ours.time[0]],
            vec![ours.block[0]],
            vec![ours.list[0]],
            vec![number],
            vec![ours.image_length[0]],
            vec![ours.written[0]],
        ];
        for (tally, numbers) in self.tallies[which].iter_mut().zip(said) {
            numbers.iter().for_each(|number| tally.count(*number));
        }
        let entries = &mut self.most_entries[which];
        *entries = ours.resolved[2].max(*entries);
        let lengths = [files.image, files.pagefile].map(|file| file.len() as u64);
        if let Ok(case) = check_sheet(files.sheet, lengths[0], lengths[1], Slip::None) {
            self.met.look(&case, files, question, ours);
            self.met.look_at_reserved(files, question, ours, &map);
        }
    }
}

fn case_text(files: &CaseFiles, question: &Question) -> String {
    format!(
        "sheet [{}] image length 0x{:X} pagefile length 0x{:X}{}{}{}{}",
        hex(&files.sheet),
        files.image.len(),
        files.pagefile.len(),
        format_args!(
            "\n  address 0x{:X}, time at 0x{:X}",
            question.address, question.time
        ),
        format_args!(
            "\n  read of {} bytes at 0x{:X} into {}, {} pages at 0x{:X} into {}, looked up 0x{:X?}",
            question.n,
            question.start,
            question.room,
            question.pages,
            question.map_start,
            question.map_room,
            question.lookups
        ),
        format_args!(
            "\n  block from 0x{:X}, list from 0x{:X} into {}, runs into {}",
            question.from, question.head, question.list_room, question.case_room
        ),
        format_args!(
            "\n  sheet of 0x{:X}, mode {}, place {}, starts {:X?}, lengths {:X?} into {}",
            question.sheet.directory_page,
            question.sheet.mode,
            question.sheet.place,
            question.sheet.starts,
            question.sheet.lengths,
            question.sheet.room
        ),
    )
}

/// Prints the tables and every reason to fail; true if there is none.
fn report(comparison: &Comparison) -> bool {
    for (mode, tallies) in [PLAIN, PAE].iter().zip(&comparison.tallies) {
        println!("mode {}", mode);
        print_table(&tallies.iter().take(6).collect::<Vec<_>>());
        print_table(&tallies.iter().skip(6).collect::<Vec<_>>());
    }
    println!("most entries read: {:?}", comparison.most_entries);
    comparison.bad_forms.print();
    comparison.met.print();
    comparison
        .shown
        .iter()
        .for_each(|text| println!("{}", text));
    let reasons = reasons_to_fail(comparison);
    reasons.iter().for_each(|reason| println!("{}", reason));
    if reasons.is_empty() {
        let [plain, pae] = comparison.cases.map(with_commas);
        println!(
            "narrow: {} cases of mode 1 and {} of mode 2 agree",
            plain, pae
        );
    }
    reasons.is_empty()
}

fn reasons_to_fail(comparison: &Comparison) -> Vec<String> {
    let mut reasons = Vec::new();
    if comparison.differing > 0 {
        reasons.push(format!("differs: {}", comparison.differing));
    }
    for (mode, tallies) in [PLAIN, PAE].iter().zip(&comparison.tallies) {
        for (tally, (_, numbers)) in tallies.iter().zip(calls(*mode)) {
            let rare = tally.reasons(&numbers);
            reasons.extend(
                rare.iter()
                    .map(|reason| format!("mode {}, {}", mode, reason)),
            );
        }
    }
    if comparison.most_entries != MOST_ENTRIES {
        reasons.push(format!("most entries read: wanted {:?}", MOST_ENTRIES));
    }
    reasons.extend(comparison.bad_forms.reasons());
    reasons.extend(comparison.met.reasons());
    STATED.iter().for_each(|stated| {
        judge_answer(stated, "exports", &EXPORTS, &mut reasons);
        judge_answer(stated, "second reader", &Second(Slip::None), &mut reasons);
    });
    judge_sheets("exported", &EXPORTS, &mut reasons);
    judge_sheets("second", &Second(Slip::None), &mut reasons);
    judge_whole_map("exported", &EXPORTS, &mut reasons);
    judge_whole_map("second", &Second(Slip::None), &mut reasons);
    reasons
}

/// A reader's address call against an answer that a paper states.
fn judge_answer(stated: &Stated, whose: &str, calls: &impl Calls, reasons: &mut Vec<String>) {
    let files = stated.files();
    let got = calls.resolve(files.lent(), stated.address);
    let wanted = stated.answer();
    if got != wanted {
        reasons.push(format!(
            "{}: {} {:X?} instead of {:X?}",
            stated.what, whose, got, wanted
        ));
    }
}

/// A reader's calls against sheets that are refused as stated.
fn judge_sheets(whose: &str, calls: &impl Calls, reasons: &mut Vec<String>) {
    for stated in &STATED_WITH_MODE {
        let files = Files {
            sheet: stated.0,
            image: &[],
            pagefile: &[],
        };
        judge_stated(whose, stated, calls.resolve(files, 0), reasons);
        let [number, length] = calls.image_length(stated.0);
        judge_stated(whose, stated, [number, length, 0], reasons);
        let [number, directory, mode, place, length] = calls.case(files, &mut []);
        judge_stated(
            whose,
            stated,
            [number, length, directory | mode | place],
            reasons,
        );
        let [number, length] = calls.process_list(files, 1, &mut []);
        judge_stated(whose, stated, [number, length, 0], reasons);
    }
}

/// A reader's map of all addresses of the first stated case of each mode: 2^20 pages, and one more is refused.
fn judge_whole_map(whose: &str, calls: &impl Calls, reasons: &mut Vec<String>) {
    for mode in [PLAIN, PAE] {
        let stated = STATED.iter().find(|stated| stated.mode == mode);
        let stated = stated.expect("a case of each mode is stated");
        let files = stated.files();
        let mut map = [0; 64];
        let [number, length] = calls.map(files.lent(), 0, 1 << 20, &mut map);
        let [past, _] = calls.map(files.lent(), 0, (1 << 20) + 1, &mut []);
        let read = read_map(&map[..map.len().min(length as usize)]).unwrap_or_default();
        let found = calls.lookup(&map[..map.len().min(length as usize)], stated.address);
        let [wanted, offset, _] = stated.answer();
        let holds = [number, past, read.pages] == [0, 40, 1 << 20] && found == [wanted, offset];
        if !holds {
            reasons.push(format!(
                "map of all of mode {}: {} {:?}",
                mode, whose, found
            ));
        }
    }
}
