//! Compares the exported address, page and read calls, and the bytes that the page call lends, with those of the second walk.

#[path = "../common"]
mod common {
    pub mod arguments;
    pub mod bad_forms;
    pub mod case_files;
    pub mod codes;
    pub mod groups;
    pub mod many_runs;
    pub mod memory;
    pub mod print;
    pub mod random;
    pub mod reserved;
    pub mod tally;
}
mod exports;
mod run_edges;
// Each test uses its own part of the second reader.
#[allow(dead_code)]
#[path = "../second"]
mod second {
    pub mod bytes;
    pub mod codes;
    pub mod number;
    pub mod sheet;
    pub mod slip;
    pub mod walk;
}
mod walk_cases;

use common::arguments;
use common::bad_forms::{self, FormTimes, SHEET, STATED_SHEETS};
use common::case_files::CaseFiles;
use common::codes::{
    address_numbers, CASE_REFUSALS, NOT_CANONICAL, PAGE_IN_STORE, PAGE_REFUSALS, PLACES,
};
use common::many_runs::ByRuns;
use common::print::{hex, with_commas};
use common::reserved::{reserved_level, reserved_level_of_read, ByLevel};
use common::tally::{print_table, Tally, LEAST_TIMES};
use run_edges::{each_edge, Edge, EdgeTimes};
use second::bytes;
use second::slip::{Slip, FORM_SLIPS, RESERVED_SLIPS, WALK_SLIPS};
use second::walk::{self, word_at, Files, Place};
use std::process::ExitCode;
use walk_cases::{
    each_question, each_question_about_forms, each_question_about_runs, Question, Stated,
    MOST_ROOM, STATED,
};

/// Every number that a read can hand back.
fn read_numbers() -> Vec<u64> {
    [&[0], CASE_REFUSALS, &[NOT_CANONICAL], PAGE_REFUSALS, &[45]].concat()
}

/// How many prototype entries a chain can have.
const MOST_PROTOTYPES: usize = 3;

/// The most entries that an address can take.
const MOST_ENTRIES: u64 = 19;

/// For so many cases each edge of the runs is asked once more: LEAST_TIMES times for the usual ones.
const CASES_AN_EDGE: u64 = 2_000;

/// How many differing cases are printed.
const MOST_SHOWN: usize = 5;

/// Bytes behind the lent buffer, which no call may touch.
const GUARD: usize = 64;

fn main() -> ExitCode {
    let slips = [WALK_SLIPS, RESERVED_SLIPS, FORM_SLIPS].concat();
    arguments::run("walks", 200_000, &slips, |arguments| {
        let mut comparison = Comparison::new(arguments.slip);
        let mut compare = |files: &CaseFiles, question: &Question| {
            comparison.compare(files, question);
        };
        each_question(arguments.seed, arguments.cases, &mut compare);
        each_question_about_runs(arguments.seed, &mut compare);
        each_question_about_forms(arguments.seed, &mut compare);
        let times = arguments.cases / CASES_AN_EDGE;
        each_edge(arguments.seed, times, &mut |files, edge| {
            comparison.meet(files, edge)
        });
        report(&comparison, times.min(LEAST_TIMES))
    })
}

/// The three numbers of an answer, as the exports and as the second walk give them.
type Pair = [[u64; 3]; 2];

/// What came of comparing all cases.
struct Comparison {
    slip: Slip,
    cases: u64,
    resolved: Tally,
    read: Tally,
    resolved_by_runs: ByRuns,
    read_by_runs: ByRuns,
    resolved_by_forms: FormTimes,
    read_by_forms: FormTimes,
    resolved_reserved: ByLevel,
    read_reserved: ByLevel,
    /// By the prototype entries followed: all answers of accepted cases, those found, those in the store.
    chains: [[u64; 3]; MOST_PROTOTYPES + 1],
    most_entries: u64,
    edges: EdgeTimes,
    differing: u64,
    shown: Vec<String>,
    pattern: Vec<u8>,
    buffers: [Vec<u8>; 2],
}

impl Comparison {
    fn new(slip: Slip) -> Self {
        Comparison {
            slip,
            cases: 0,
            resolved: Tally::new("resolve", address_numbers()),
            read: Tally::new("read", read_numbers()),
            resolved_by_runs: ByRuns::new("resolve", address_numbers()),
            read_by_runs: ByRuns::new("read", read_numbers()),
            resolved_by_forms: FormTimes::new("resolve", &SHEET),
            read_by_forms: FormTimes::new("read", &SHEET),
            resolved_reserved: ByLevel::new("resolve"),
            read_reserved: ByLevel::new("read"),
            chains: [[0; 3]; MOST_PROTOTYPES + 1],
            most_entries: 0,
            edges: EdgeTimes::new(),
            differing: 0,
            shown: Vec::new(),
            pattern: (0..MOST_ROOM + GUARD).map(pattern_byte).collect(),
            buffers: [Vec::new(), Vec::new()],
        }
    }

    fn meet(&mut self, files: &CaseFiles, edge: &Edge) {
        if self.compare(files, &edge.question) == edge.wanted {
            self.edges.count(edge);
        }
    }

    /// Hands back the exported address call's number, offset and entries.
    fn compare(&mut self, files: &CaseFiles, question: &Question) -> [u64; 3] {
        self.cases += 1;
        let resolved = self.resolve(files.lent(), question.address);
        let parts = pages(files.lent(), question.address, self.slip);
        let same_page = self.copy_page(files.lent(), question);
        let read = self.read(files.lent(), question);
        let same_bytes = self.buffers[0] == self.buffers[1];
        let same = same_page
            && same_bytes
            && [resolved, parts, read]
                .iter()
                .all(|pair| pair[0] == pair[1]);
        if same {
            return resolved[0];
        }
        self.differing += 1;
        if self.shown.len() < MOST_SHOWN {
            let mut text = case_text(self.cases, files, question);
            text += &entries_text(files.lent(), question.address, self.slip);
            text += &pair_text("resolve", "number, offset, entries", resolved);
            text += &pair_text("page", "file, offset, length", parts);
            text += &pair_text("read", "number, length, zeros", read);
            if !same_page {
                text += "\n  the bytes of the page differ";
            }
            if !same_bytes {
                text += "\n  the buffers differ";
            }
            self.shown.push(text);
        }
        resolved[0]
    }

    fn resolve(&mut self, files: Files, address: u64) -> Pair {
        let theirs = exports::resolve(files.sheet, files.image, files.pagefile, address);
        let ours = walk::resolve(files, address, self.slip);
        self.resolved.count(ours.number);
        self.resolved_by_runs.count(files.sheet, ours.number);
        self.resolved_by_forms
            .count(files.sheet, ours.number, ours.offset);
        self.resolved_reserved
            .count(ours.number, || reserved_level(files, address));
        self.most_entries = self.most_entries.max(ours.entries);
        let chain = ours.prototypes as usize;
        if !CASE_REFUSALS.contains(&ours.number) && chain <= MOST_PROTOTYPES {
            self.chains[chain][0] += 1;
            self.chains[chain][1] += u64::from(PLACES.contains(&ours.number));
            self.chains[chain][2] += u64::from(ours.number == PAGE_IN_STORE);
        }
        [
            [theirs.number, theirs.offset, theirs.entries],
            [ours.number, ours.offset, ours.entries],
        ]
    }

    /// Two buffers with the same bytes in and behind them.
    fn lend(&mut self, room: usize) -> &mut [Vec<u8>; 2] {
        for buffer in &mut self.buffers {
            buffer.clear();
            buffer.extend_from_slice(&self.pattern[..room + GUARD]);
        }
        &mut self.buffers
    }

    /// Whether the page has the same bytes, copied as far as a buffer goes, and as many.
    fn copy_page(&mut self, files: Files, question: &Question) -> bool {
        let Question { address, room, .. } = *question;
        let part = bytes::page(files, address, self.slip);
        let Some(page) = bytes::part_bytes(files, &part, self.slip) else {
            return false;
        };
        let [their_buffer, our_buffer] = self.lend(room);
        let length = exports::page_copy(
            files.sheet,
            files.image,
            files.pagefile,
            address,
            &mut their_buffer[..room],
        );
        let copied = page.len().min(room);
        our_buffer[..copied].copy_from_slice(&page[..copied]);
        length == page.len() && their_buffer == our_buffer
    }

    fn read(&mut self, files: Files, question: &Question) -> Pair {
        let Question { start, n, room, .. } = *question;
        let slip = self.slip;
        let [their_buffer, our_buffer] = self.lend(room);
        let theirs = exports::read(
            files.sheet,
            files.image,
            files.pagefile,
            start,
            n,
            &mut their_buffer[..room],
        );
        let ours = bytes::read(files, start, n, &mut our_buffer[..room], slip);
        self.read.count(ours.number);
        self.read_by_runs.count(files.sheet, ours.number);
        self.read_by_forms
            .count(files.sheet, ours.number, ours.length);
        self.read_reserved
            .count(ours.number, || reserved_level_of_read(files, start, n));
        [
            [theirs.number, theirs.length, theirs.zeros],
            [ours.number, ours.length, ours.zeros],
        ]
    }
}

fn pages(files: Files, address: u64, slip: Slip) -> Pair {
    let theirs = exports::page(files.sheet, files.image, files.pagefile, address);
    let ours = bytes::page(files, address, slip);
    [
        [theirs.file, theirs.offset, theirs.length],
        [ours.file, ours.offset, ours.length],
    ]
}

/// Never 0, so that a byte left alone differs from a byte of a page of zeros.
fn pattern_byte(place: usize) -> u8 {
    (place % 251) as u8 + 1
}

fn case_text(case: u64, files: &CaseFiles, question: &Question) -> String {
    format!(
        "case {}: sheet [{}] image length 0x{:X} pagefile length 0x{:X}{}{}",
        case,
        hex(&files.sheet),
        files.image.len(),
        files.pagefile.len(),
        format_args!("\n  address 0x{:016X}", question.address),
        format_args!(
            ", read of {} bytes at 0x{:016X} into {}",
            question.n, question.start, question.room
        ),
    )
}

fn pair_text(call: &str, fields: &str, pair: Pair) -> String {
    if pair[0] == pair[1] {
        return String::new();
    }
    let [theirs, ours] = pair.map(answer_text);
    format!(
        "\n  {} ({}): exports {}, second walk {}",
        call, fields, theirs, ours
    )
}

fn answer_text([first, second, third]: [u64; 3]) -> String {
    format!("{} 0x{:X} {}", first, second, third)
}

/// The entries that the second walk read, each with its place.
fn entries_text(files: Files, address: u64, slip: Slip) -> String {
    let mut text = String::new();
    for place in walk::resolve(files, address, slip).consulted {
        let (file, offset, entry) = match place {
            Place::Image(offset) => ("image", offset, word_at(files.image, offset)),
            Place::Pagefile(offset) => ("pagefile", offset, word_at(files.pagefile, offset)),
            Place::Zeros => ("zeros", 0, 0),
        };
        text += &format!("\n  {} 0x{:X}: 0x{:016X}", file, offset, entry);
    }
    text
}

/// Prints the tables and every reason to fail; true if there is none.
fn report(comparison: &Comparison, least_edge_times: u64) -> bool {
    print_table(&[&comparison.resolved, &comparison.read]);
    comparison.resolved_by_runs.print();
    comparison.read_by_runs.print();
    comparison.resolved_by_forms.print();
    comparison.read_by_forms.print();
    ByLevel::print(&[&comparison.resolved_reserved, &comparison.read_reserved]);
    println!(
        "{:>6} {:>12} {:>12} {:>12}",
        "depth", "answers", "found", "in store"
    );
    for (chain, times) in comparison.chains.iter().enumerate() {
        let [answers, found, stored] = times.map(with_commas);
        println!("{:>6} {:>12} {:>12} {:>12}", chain, answers, found, stored);
    }
    println!("most entries read: {}", comparison.most_entries);
    comparison.edges.print();
    comparison
        .shown
        .iter()
        .for_each(|text| println!("{}", text));
    let reasons = reasons_to_fail(comparison, least_edge_times);
    reasons.iter().for_each(|reason| println!("{}", reason));
    if reasons.is_empty() {
        println!("walks: {} cases agree", with_commas(comparison.cases));
    }
    reasons.is_empty()
}

fn reasons_to_fail(comparison: &Comparison, least_edge_times: u64) -> Vec<String> {
    let mut reasons = Vec::new();
    if comparison.differing > 0 {
        reasons.push(format!("differs: {}", comparison.differing));
    }
    reasons.extend(comparison.resolved.reasons(&address_numbers()));
    reasons.extend(comparison.read.reasons(&read_numbers()));
    reasons.extend(comparison.resolved_by_runs.reasons(&[1, 23]));
    reasons.extend(comparison.read_by_runs.reasons(&[0, 23]));
    reasons.extend(comparison.resolved_by_forms.reasons());
    reasons.extend(comparison.read_by_forms.reasons());
    reasons.extend(comparison.resolved_reserved.reasons());
    reasons.extend(comparison.read_reserved.reasons());
    for (chain, [_, found, stored]) in comparison.chains.iter().enumerate() {
        for (what, times) in [("found", found), ("in store", stored)] {
            if *times < LEAST_TIMES {
                reasons.push(format!(
                    "{} at depth {} came up {} times, wanted {}",
                    what, chain, times, LEAST_TIMES
                ));
            }
        }
    }
    reasons.extend(comparison.edges.reasons(least_edge_times));
    if comparison.most_entries != MOST_ENTRIES {
        reasons.push(format!("most entries read: wanted {}", MOST_ENTRIES));
    }
    STATED
        .iter()
        .for_each(|stated| judge_stated(stated, &mut reasons));
    judge_stated_sheets(&mut reasons);
    reasons
}

/// Both walks against an answer that a paper states.
fn judge_stated(stated: &Stated, reasons: &mut Vec<String>) {
    let files = stated.files();
    let files = files.lent();
    let theirs = exports::resolve(files.sheet, files.image, files.pagefile, stated.address);
    let ours = walk::resolve(files, stated.address, Slip::None);
    let wanted = stated.answer();
    for (whose, got) in [
        ("exports", [theirs.number, theirs.offset, theirs.entries]),
        ("second walk", [ours.number, ours.offset, ours.entries]),
    ] {
        if got != wanted {
            let (got, wanted) = (answer_text(got), answer_text(wanted));
            reasons.push(format!(
                "{}: {} {} instead of {}",
                stated.what, whose, got, wanted
            ));
        }
    }
}

/// Both walks against sheets that are refused as stated; the page call has no place for a position.
fn judge_stated_sheets(reasons: &mut Vec<String>) {
    for stated in &STATED_SHEETS {
        let sheet = stated.0;
        let files = Files {
            sheet,
            image: &[],
            pagefile: &[],
        };
        let mut judge = |whose, answer| bad_forms::judge_stated(whose, stated, answer, reasons);
        let theirs = exports::resolve(sheet, &[], &[], 0);
        let ours = walk::resolve(files, 0, Slip::None);
        judge(
            "exported address",
            [theirs.number, theirs.offset, theirs.entries],
        );
        judge("second address", [ours.number, ours.offset, ours.entries]);
        let theirs = exports::read(sheet, &[], &[], 0, 1, &mut [0]);
        let ours = bytes::read(files, 0, 1, &mut [0], Slip::None);
        judge(
            "exported read",
            [theirs.number, theirs.length, theirs.zeros],
        );
        judge("second read", [ours.number, ours.length, ours.zeros]);
        let parts = pages(files, 0, Slip::None);
        if parts != [[0; 3]; 2] {
            reasons.push(format!("page: {:?} for [{}]", parts, hex(sheet)));
        }
    }
}
