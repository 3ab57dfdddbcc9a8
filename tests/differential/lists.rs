//! Compares the exported processor-block search and process list with those of the second reader.

#[path = "../common"]
mod common {
    pub mod arguments;
    pub mod bad_forms;
    pub mod case_files;
    pub mod codes;
    pub mod groups;
    pub mod many_runs;
    pub mod memory;
    pub mod print;
    pub mod random;
    pub mod reserved;
    pub mod small_case;
    pub mod tally;
}
mod block_cases;
// Only the types of the earlier calls are used here.
#[allow(dead_code)]
mod exports;
mod exports_lists;
#[allow(dead_code)]
mod exports_map;
mod links;
mod list_cases;
mod lists_at_edges;
mod long_list;
// Each test uses its own part of the second reader.
#[allow(dead_code)]
#[path = "../second"]
mod second {
    pub mod codes;
    pub mod lists;
    pub mod number;
    pub mod sheet;
    pub mod slip;
    pub mod walk;
}

use common::arguments;
use common::bad_forms::{judge_stated, FormTimes, SHEET, STATED_SHEETS};
use common::case_files::CaseFiles;
use common::codes::{CASE_REFUSALS, NOT_CANONICAL, PAGE_REFUSALS};
use common::many_runs::ByRuns;
use common::print::{hex, with_commas};
use common::reserved::{reserved_level, ByLevel};
use common::tally::{print_table, Tally};
use links::refused_address;
use list_cases::{each_question, each_question_about_forms, p11_files, Question, P11_HEAD};
use lists_at_edges::each_question_about_runs;
use second::lists::{process_list, processor_block, Written};
use second::slip::{Slip, FORM_SLIPS, LIST_SLIPS};
use second::walk::Files;
use std::process::ExitCode;

/// Every number that a search can hand back.
fn block_numbers() -> Vec<u64> {
    [&[1], CASE_REFUSALS, &[55]].concat()
}

/// Every number that a list call can hand back.
fn list_numbers() -> Vec<u64> {
    let of_links = [&[NOT_CANONICAL], PAGE_REFUSALS, &[50, 51]].concat();
    [&[0], CASE_REFUSALS, &of_links, &[52, 53]].concat()
}

/// Lengths of lists; 3 stands for all between 2 and the longest.
const LENGTHS: &[u64] = &[0, 1, 2, 3, 4096];

/// How many differing cases are printed.
const MOST_SHOWN: usize = 5;

/// Words behind the lent buffer, which no call may touch.
const GUARD: usize = 8;

fn main() -> ExitCode {
    let slips = [LIST_SLIPS, FORM_SLIPS, &[Slip::ReservedNotKnown]].concat();
    arguments::run("lists", 50_000, &slips, |arguments| {
        let mut comparison = Comparison::new(arguments.slip);
        let mut compare =
            |files: &CaseFiles, question: &Question| comparison.compare(files, question);
        each_question(arguments.seed, arguments.cases, &mut compare);
        each_question_about_runs(arguments.seed, &mut compare);
        each_question_about_forms(arguments.seed, &mut compare);
        report(&comparison)
    })
}

/// What came of comparing all cases.
struct Comparison {
    slip: Slip,
    cases: u64,
    blocks: Tally,
    lists: Tally,
    blocks_by_runs: ByRuns,
    lists_by_runs: ByRuns,
    blocks_by_forms: FormTimes,
    lists_by_forms: FormTimes,
    lists_reserved: ByLevel,
    /// The lists written, by their length in few steps.
    lengths: Tally,
    differing: u64,
    shown: Vec<String>,
    buffers: [Vec<u64>; 2],
}

impl Comparison {
    fn new(slip: Slip) -> Self {
        Comparison {
            slip,
            cases: 0,
            blocks: Tally::new("block search", block_numbers()),
            lists: Tally::new("list", list_numbers()),
            blocks_by_runs: ByRuns::new("block search", block_numbers()),
            lists_by_runs: ByRuns::new("list", list_numbers()),
            blocks_by_forms: FormTimes::new("block search", &SHEET),
            lists_by_forms: FormTimes::new("list", &SHEET),
            lists_reserved: ByLevel::new("list"),
            lengths: Tally::new("lists written", LENGTHS.to_vec()),
            differing: 0,
            shown: Vec::new(),
            buffers: [Vec::new(), Vec::new()],
        }
    }

    fn compare(&mut self, files: &CaseFiles, question: &Question) {
        self.cases += 1;
        let difference = match *question {
            Question::Block { from } => self.search(files.lent(), from),
            Question::List { head, room } => self.list(files.lent(), head, room),
        };
        let Some(difference) = difference else {
            return;
        };
        self.differing += 1;
        if self.shown.len() < MOST_SHOWN {
            let text = case_text(self.cases, files, question);
            self.shown.push(text + &difference);
        }
    }

    fn search(&mut self, files: Files, from: u64) -> Option<String> {
        let theirs = exports_lists::processor_block(files.sheet, files.image, files.pagefile, from);
        let ours = processor_block(files, from, self.slip);
        self.blocks.count(ours.number);
        self.blocks_by_runs.count(files.sheet, ours.number);
        self.blocks_by_forms
            .count(files.sheet, ours.number, ours.offset);
        let theirs = [theirs.number, theirs.offset, theirs.entries];
        let ours = [ours.number, ours.offset, ours.entries];
        (theirs != ours).then(|| {
            format!(
                "\n  number, offset, entries: exports {:?}, second reader {:?}",
                theirs, ours
            )
        })
    }

    /// Lists into two buffers with the same words in and behind them.
    fn list(&mut self, files: Files, head: u64, room: usize) -> Option<String> {
        for buffer in &mut self.buffers {
            buffer.clear();
            buffer.extend((0..room + GUARD).map(pattern_word));
        }
        let [their_buffer, our_buffer] = &mut self.buffers;
        let theirs = exports_lists::process_list(
            files.sheet,
            files.image,
            files.pagefile,
            head,
            &mut their_buffer[..room],
        );
        let ours = process_list(files, head, &mut our_buffer[..room], self.slip);
        self.count_list(files, head, &ours);
        let [their_buffer, our_buffer] = &self.buffers;
        let theirs = [theirs.number, theirs.length];
        let ours = [ours.number, ours.length];
        if theirs == ours && their_buffer == our_buffer {
            return None;
        }
        let words = their_buffer.iter().zip(our_buffer.iter());
        let place = words.into_iter().position(|(their, our)| their != our);
        Some(format!(
            "\n  number, length: exports {:?}, second reader {:?}\n  {}",
            theirs,
            ours,
            place.map_or("the buffers are the same".to_string(), |place| format!(
                "word {}: exports 0x{:016X}, second reader 0x{:016X}",
                place, their_buffer[place], our_buffer[place]
            ))
        ))
    }

    fn count_list(&mut self, files: Files, head: u64, ours: &Written) {
        self.lists.count(ours.number);
        self.lists_by_runs.count(files.sheet, ours.number);
        self.lists_by_forms
            .count(files.sheet, ours.number, ours.length);
        self.lists_reserved.count(ours.number, || {
            reserved_level(files, refused_address(files, head)?)
        });
        if ours.number == 0 {
            self.lengths.count(length_class(ours.length));
        }
    }
}

/// Never a node's address, as it is not a multiple of 8.
fn pattern_word(place: usize) -> u64 {
    0x5A5A_5A5A_0000_0001 + 8 * place as u64
}

/// The length itself, or 3 for all lengths between 2 and the longest.
fn length_class(length: u64) -> u64 {
    match LENGTHS.contains(&length) {
        true => length,
        false => 3,
    }
}

fn case_text(case: u64, files: &CaseFiles, question: &Question) -> String {
    let asked = match *question {
        Question::Block { from } => format!("block search from 0x{:X}", from),
        Question::List { head, room } => format!("list at 0x{:016X} into {} words", head, room),
    };
    format!(
        "case {}: sheet [{}] image length 0x{:X} pagefile length 0x{:X}\n  {}",
        case,
        hex(&files.sheet),
        files.image.len(),
        files.pagefile.len(),
        asked
    )
}

/// Prints the tables and every reason to fail; true if there is none.
fn report(comparison: &Comparison) -> bool {
    print_table(&[&comparison.blocks, &comparison.lists]);
    print_table(&[&comparison.lengths]);
    comparison.blocks_by_runs.print();
    comparison.lists_by_runs.print();
    comparison.blocks_by_forms.print();
    comparison.lists_by_forms.print();
    ByLevel::print(&[&comparison.lists_reserved]);
    comparison
        .shown
        .iter()
        .for_each(|text| println!("{}", text));
    let mut reasons = Vec::new();
    if comparison.differing > 0 {
        reasons.push(format!("differs: {}", comparison.differing));
    }
    reasons.extend(comparison.blocks.reasons(&block_numbers()));
    reasons.extend(comparison.lists.reasons(&list_numbers()));
    reasons.extend(comparison.lengths.reasons(LENGTHS));
    reasons.extend(comparison.blocks_by_runs.reasons(&[1]));
    reasons.extend(comparison.lists_by_runs.reasons(&[0, 23]));
    reasons.extend(comparison.blocks_by_forms.reasons());
    reasons.extend(comparison.lists_by_forms.reasons());
    reasons.extend(comparison.lists_reserved.reasons());
    judge_p11(&mut reasons);
    judge_stated_sheets(&mut reasons);
    reasons.iter().for_each(|reason| println!("{}", reason));
    if reasons.is_empty() {
        println!("lists: {} cases agree", with_commas(comparison.cases));
    }
    reasons.is_empty()
}

/// Both readers against the empty list that the paper states, with and without room.
fn judge_p11(reasons: &mut Vec<String>) {
    let files = p11_files();
    let files = files.lent();
    for room in [0, 2] {
        let mut buffers = [vec![7; room], vec![7; room]];
        let [their_buffer, our_buffer] = &mut buffers;
        let theirs = exports_lists::process_list(
            files.sheet,
            files.image,
            files.pagefile,
            P11_HEAD,
            their_buffer,
        );
        let ours = process_list(files, P11_HEAD, our_buffer, Slip::None);
        let answers = [[theirs.number, theirs.length], [ours.number, ours.length]];
        for (answer, buffer) in answers.iter().zip(&buffers) {
            if *answer != [0, 0] || buffer.iter().any(|word| *word != 7) {
                reasons.push(format!("P11: {:?} {:?}", answer, buffer));
            }
        }
    }
}

/// Both readers' searches and lists against sheets that are refused as stated.
fn judge_stated_sheets(reasons: &mut Vec<String>) {
    for stated in &STATED_SHEETS {
        let files = Files {
            sheet: stated.0,
            image: &[],
            pagefile: &[],
        };
        let theirs = exports_lists::processor_block(files.sheet, &[], &[], 0);
        let ours = processor_block(files, 0, Slip::None);
        let theirs = [theirs.number, theirs.offset, theirs.entries];
        judge_stated("exported search", stated, theirs, reasons);
        let ours = [ours.number, ours.offset, ours.entries];
        judge_stated("second search", stated, ours, reasons);
        let theirs = exports_lists::process_list(files.sheet, &[], &[], 0, &mut []);
        let ours = process_list(files, 0, &mut [], Slip::None);
        judge_stated(
            "exported list",
            stated,
            [theirs.number, theirs.length, 0],
            reasons,
        );
        judge_stated(
            "second list",
            stated,
            [ours.number, ours.length, 0],
            reasons,
        );
    }
}
