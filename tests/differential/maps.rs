//! Compares the exported map and lookup calls with those of the second reader.

#[path = "../common"]
mod common {
    pub mod arguments;
    pub mod bad_forms;
    pub mod case_files;
    pub mod codes;
    pub mod groups;
    pub mod many_runs;
    pub mod memory;
    pub mod print;
    pub mod random;
    pub mod reserved;
    pub mod small_case;
    pub mod tally;
}
mod exports_map;
mod map_cases;
mod other_maps;
mod ranges;
// Each test uses its own part of the second reader.
#[allow(dead_code)]
#[path = "../second"]
mod second {
    pub mod codes;
    pub mod map;
    pub mod number;
    pub mod sheet;
    pub mod slip;
    pub mod walk;
}

use common::arguments;
use common::bad_forms::{self, FormTimes, MAP, SHEET, STATED_MAPS, STATED_SHEETS};
use common::case_files::CaseFiles;
use common::codes::{
    CASE_REFUSALS, EXTENT_CODES, MODE_ZERO_CODES, NOT_CANONICAL, RESERVED_BIT_SET,
};
use common::many_runs::ByRuns;
use common::print::{hex, with_commas};
use common::reserved::{reserved_level, reserved_levels, ByLevel};
use common::tally::{print_table, Tally};
use map_cases::{
    each_question, each_question_about_forms, each_question_about_runs, p2_files, reserved_files,
    store_files, Question, Stated, P2, RESERVED, RESERVED_BEFORE, STORE, STORE_BEFORE,
};
use other_maps::each_short_map;
use second::map::{lookup, map, map_bytes, read_map, Found};
use second::slip::{Slip, FORM_SLIPS, MAP_SLIPS};
use second::walk::{self, Files};
use std::collections::HashSet;
use std::process::ExitCode;

/// Every number that a map call can hand back.
fn map_numbers() -> Vec<u64> {
    [&[0], CASE_REFUSALS, &[40, 44]].concat()
}

/// Every number that a lookup can hand back.
fn lookup_numbers() -> Vec<u64> {
    [EXTENT_CODES, OF_MAP, OF_ADDRESS].concat()
}

/// The refusals of a map with a fault.
const OF_MAP: &[u64] = &[10, 11, 12, 14, 18, 43];

/// The refusals of a lookup in a map without fault.
const OF_ADDRESS: &[u64] = &[NOT_CANONICAL, 41];

/// How many differing cases are printed.
const MOST_SHOWN: usize = 5;

/// How many bytes of a map are printed.
const MOST_MAP_BYTES: usize = 64;

/// Bytes behind the lent buffer, which no call may touch.
const GUARD: usize = 64;

fn main() -> ExitCode {
    let slips = [MAP_SLIPS, FORM_SLIPS, &[Slip::ReservedNotKnown]].concat();
    arguments::run("maps", 50_000, &slips, |arguments| {
        let mut comparison = Comparison::new(arguments.slip);
        each_short_map(&mut |map| comparison.compare_short(map));
        let mut compare =
            |files: &CaseFiles, question: &Question| comparison.compare(files, question);
        each_question(arguments.seed, arguments.cases, &mut compare);
        each_question_about_runs(arguments.seed, &mut compare);
        each_question_about_forms(arguments.seed, &mut compare);
        report(&comparison)
    })
}

/// What came of comparing all cases.
struct Comparison {
    slip: Slip,
    cases: u64,
    maps: Tally,
    codes: Tally,
    codes_by_runs: ByRuns,
    maps_by_forms: FormTimes,
    lookups_by_forms: FormTimes,
    maps_reserved: ByLevel,
    lookups_reserved: ByLevel,
    lookups: Tally,
    other_lookups: Tally,
    short_lookups: Tally,
    differing: u64,
    shown: Vec<String>,
    buffers: [Vec<u8>; 2],
}

impl Comparison {
    fn new(slip: Slip) -> Self {
        Comparison {
            slip,
            cases: 0,
            maps: Tally::new("map call", map_numbers()),
            codes: Tally::new("maps with code", MODE_ZERO_CODES.to_vec()),
            codes_by_runs: ByRuns::new("maps with code", MODE_ZERO_CODES.to_vec()),
            maps_by_forms: FormTimes::new("map call", &SHEET),
            lookups_by_forms: FormTimes::new("other maps", &MAP),
            maps_reserved: ByLevel::new("maps with code"),
            lookups_reserved: ByLevel::new("lookup"),
            lookups: Tally::new("lookup", lookup_numbers()),
            other_lookups: Tally::new("other maps", lookup_numbers()),
            short_lookups: Tally::new("short maps", lookup_numbers()),
            differing: 0,
            shown: Vec::new(),
            buffers: [Vec::new(), Vec::new()],
        }
    }

    fn compare(&mut self, files: &CaseFiles, question: &Question) {
        self.cases += 1;
        let mut differences = Vec::new();
        let lengths = self.map(files.lent(), question, &mut differences);
        if let Some(lengths) = lengths {
            self.count_codes(files, lengths[1]);
            for address in &question.addresses {
                self.look_up(files.lent(), question, lengths, *address, &mut differences);
            }
        }
        for other in &question.others {
            let (found, difference) = look_up_in(&other.bytes, other.address, self.slip);
            self.other_lookups.count(found.number);
            self.lookups_by_forms
                .count(&other.bytes, found.number, found.offset);
            differences.extend(difference);
        }
        if !differences.is_empty() {
            self.differing += 1;
            let text = || case_text(self.cases, files, question) + &differences.concat();
            show(&mut self.shown, text);
        }
    }

    /// Looks up an address in the second of a few pages.
    fn compare_short(&mut self, map: &[u8]) {
        let (found, difference) = look_up_in(map, 0x1ABC, self.slip);
        self.short_lookups.count(found.number);
        if let Some(text) = difference {
            self.differing += 1;
            show(&mut self.shown, || format!("short map{}", text));
        }
    }

    /// Writes into two buffers alike; the two lengths if both say that a map was written.
    fn map(
        &mut self,
        files: Files,
        question: &Question,
        differences: &mut Vec<String>,
    ) -> Option<[usize; 2]> {
        let Question {
            start, pages, room, ..
        } = *question;
        for buffer in &mut self.buffers {
            buffer.clear();
            buffer.extend((0..room + GUARD).map(pattern_byte));
        }
        let [their_buffer, our_buffer] = &mut self.buffers;
        let theirs = exports_map::map(
            files.sheet,
            files.image,
            files.pagefile,
            start,
            pages,
            &mut their_buffer[..room],
        );
        let ours = map(files, start, pages, &mut our_buffer[..room], self.slip);
        self.maps.count(ours.number);
        self.maps_by_forms
            .count(files.sheet, ours.number, ours.length);
        let pair = [[theirs.number, theirs.length], [ours.number, ours.length]];
        if pair[0] != pair[1] {
            differences.push(pair_text("map (number, length)", pair));
        }
        if their_buffer != our_buffer {
            differences.push(buffers_text(their_buffer, our_buffer));
        }
        let held = |length: u64| room.min(length as usize);
        let written = theirs.number == 0 && ours.number == 0;
        written.then_some([held(theirs.length), held(ours.length)])
    }

    /// Counts each code once for each map that has it.
    fn count_codes(&mut self, files: &CaseFiles, length: usize) {
        // Only a slip writes a map that cannot be read.
        let map = read_map(&self.buffers[1][..length]).unwrap_or_default();
        let met: HashSet<u64> = map.extents.iter().map(|extent| extent.code).collect();
        for code in met {
            self.codes.count(code);
            self.codes_by_runs.count(&files.sheet, code);
            self.maps_reserved.count(code, || {
                reserved_levels(files.lent(), &map.ends_with(RESERVED_BIT_SET))
            });
        }
    }

    /// Looks an address up in both maps, and asks the second walk for it if it is in the range.
    fn look_up(
        &mut self,
        files: Files,
        question: &Question,
        lengths: [usize; 2],
        address: u64,
        differences: &mut Vec<String>,
    ) {
        let theirs = exports_map::lookup(&self.buffers[0][..lengths[0]], address);
        let ours = lookup(&self.buffers[1][..lengths[1]], address, self.slip);
        self.lookups.count(ours.number);
        let what = format!("lookup of 0x{:016X} (number, offset)", address);
        let pair = [[theirs.number, theirs.offset], [ours.number, ours.offset]];
        if pair[0] != pair[1] {
            differences.push(pair_text(&what, pair));
        }
        // An allowed range does not wrap, so that this is below its length for its own addresses.
        if address.wrapping_sub(question.start) / 4096 < question.pages {
            let walked = walk::resolve(files, address, Slip::None);
            self.lookups_reserved
                .count(ours.number, || reserved_level(files, address));
            let pair = [pair[0], [walked.number, walked.offset]];
            if pair[0] != pair[1] {
                differences.push(pair_text(&format!("walk and {}", what), pair));
            }
        }
    }
}

/// The second reader's answer for an address in a map, and the difference if there is one.
fn look_up_in(bytes: &[u8], address: u64, slip: Slip) -> (Found, Option<String>) {
    let theirs = exports_map::lookup(bytes, address);
    let ours = lookup(bytes, address, slip);
    let pair = [[theirs.number, theirs.offset], [ours.number, ours.offset]];
    let difference = (pair[0] != pair[1]).then(|| {
        let what = format!("lookup of 0x{:016X} in [{}]", address, map_text(bytes));
        pair_text(&what, pair)
    });
    (ours, difference)
}

/// Keeps a differing case for printing, while there is room.
fn show(shown: &mut Vec<String>, text: impl FnOnce() -> String) {
    if shown.len() < MOST_SHOWN {
        shown.push(text());
    }
}

/// Never 0, so that a byte left alone differs from a byte of 0.
fn pattern_byte(place: usize) -> u8 {
    (place % 251) as u8 + 1
}

fn case_text(case: u64, files: &CaseFiles, question: &Question) -> String {
    format!(
        "case {}: sheet [{}] image length 0x{:X} pagefile length 0x{:X}{}",
        case,
        hex(&files.sheet),
        files.image.len(),
        files.pagefile.len(),
        format_args!(
            "\n  {} pages at 0x{:016X} into {} bytes",
            question.pages, question.start, question.room
        ),
    )
}

fn pair_text(what: &str, pair: [[u64; 2]; 2]) -> String {
    let [theirs, ours] = pair.map(answer_text);
    format!("\n  {}: exports {}, second reader {}", what, theirs, ours)
}

fn answer_text([number, second]: [u64; 2]) -> String {
    format!("{} 0x{:X}", number, second)
}

fn buffers_text(theirs: &[u8], ours: &[u8]) -> String {
    let place = theirs
        .iter()
        .zip(ours)
        .position(|(their, our)| their != our);
    let from = place.unwrap_or(0) / 16 * 16;
    let [theirs, ours] = [theirs, ours].map(|buffer| map_text(&buffer[from..]));
    format!(
        "\n  buffers from byte {}\n    exports       [{}]\n    second reader [{}]",
        from, theirs, ours
    )
}

fn map_text(bytes: &[u8]) -> String {
    hex(&bytes[..bytes.len().min(MOST_MAP_BYTES)])
}

/// Prints the table and every reason to fail; true if there is none.
fn report(comparison: &Comparison) -> bool {
    let tallies = [
        &comparison.maps,
        &comparison.codes,
        &comparison.lookups,
        &comparison.other_lookups,
        &comparison.short_lookups,
    ];
    print_table(&tallies);
    comparison.codes_by_runs.print();
    comparison.maps_by_forms.print();
    comparison.lookups_by_forms.print();
    ByLevel::print(&[&comparison.maps_reserved, &comparison.lookups_reserved]);
    comparison
        .shown
        .iter()
        .for_each(|text| println!("{}", text));
    let reasons = reasons_to_fail(comparison);
    reasons.iter().for_each(|reason| println!("{}", reason));
    if reasons.is_empty() {
        println!("maps: {} cases agree", with_commas(comparison.cases));
    }
    reasons.is_empty()
}

fn reasons_to_fail(comparison: &Comparison) -> Vec<String> {
    let mut reasons = Vec::new();
    if comparison.differing > 0 {
        reasons.push(format!("differs: {}", comparison.differing));
    }
    reasons.extend(comparison.maps.reasons(&map_numbers()));
    reasons.extend(comparison.codes.reasons(MODE_ZERO_CODES));
    reasons.extend(comparison.codes_by_runs.reasons(&[1, 23]));
    reasons.extend(comparison.maps_by_forms.reasons());
    reasons.extend(comparison.lookups_by_forms.reasons());
    reasons.extend(comparison.maps_reserved.reasons());
    reasons.extend(comparison.lookups_reserved.reasons());
    reasons.extend(comparison.lookups.reasons(MODE_ZERO_CODES));
    reasons.extend(comparison.lookups.reasons(OF_ADDRESS));
    reasons.extend(comparison.other_lookups.reasons(&lookup_numbers()));
    judge_stated("P2", &P2, &p2_files(), &mut reasons);
    judge_stated("order 5", &STORE, &store_files(), &mut reasons);
    judge_stated("order 8", &RESERVED, &reserved_files(), &mut reasons);
    judge_rules_before(&BEFORE_ORDER_5, &store_files(), &mut reasons);
    judge_rules_before(&BEFORE_ORDER_8, &reserved_files(), &mut reasons);
    judge_bad_forms(&mut reasons);
    reasons
}

/// Both readers against a stated map and its lookups.
fn judge_stated(what: &str, stated: &Stated, files: &CaseFiles, reasons: &mut Vec<String>) {
    let files = files.lent();
    let (start, pages, room) = (stated.start, stated.pages, stated.map.len());
    let mut buffers = [vec![0; room], vec![0; room]];
    let [their_buffer, our_buffer] = &mut buffers;
    let theirs = exports_map::map(
        files.sheet,
        files.image,
        files.pagefile,
        start,
        pages,
        their_buffer,
    );
    let ours = map(files, start, pages, our_buffer, Slip::None);
    let answers = [[theirs.number, theirs.length], [ours.number, ours.length]];
    for (answer, buffer) in answers.iter().zip(&buffers) {
        if *answer != [0, room as u64] || buffer != stated.map {
            let written = hex(buffer);
            reasons.push(format!("{}: {} [{}]", what, answer_text(*answer), written));
        }
    }
    for (address, number, offset) in stated.lookups {
        let theirs = exports_map::lookup(stated.map, *address);
        let ours = lookup(stated.map, *address, Slip::None);
        for found in [[theirs.number, theirs.offset], [ours.number, ours.offset]] {
            if found != [*number, *offset] {
                let found = answer_text(found);
                reasons.push(format!("{}: 0x{:016X} gives {}", what, address, found));
            }
        }
    }
}

/// The rules before an order that brought a code: by which slips they are, and a stated map with what they made of it.
struct RulesBefore {
    what: &'static str,
    walk: Slip,
    codes: Slip,
    stated: Stated,
    made: &'static [u8],
    /// An address of that map, with the number and the offset that it has by them.
    false_place: (u64, u64, u64),
}

const BEFORE_ORDER_5: RulesBefore = RulesBefore {
    what: "rules before order 5",
    walk: Slip::StoreNotKnown,
    codes: Slip::CodeThirtyOneUnlisted,
    stated: STORE,
    made: STORE_BEFORE,
    false_place: (0xB1_2ABC, 2, 0x3ABC),
};

const BEFORE_ORDER_8: RulesBefore = RulesBefore {
    what: "rules before order 8",
    walk: Slip::ReservedNotKnown,
    codes: Slip::CodeThirtyThreeUnlisted,
    stated: RESERVED,
    made: RESERVED_BEFORE,
    false_place: (0xC0_2ABC, 1, 0x1ABC),
};

/// The second reader by the rules before, with neither the entry's state nor its code.
fn judge_rules_before(before: &RulesBefore, files: &CaseFiles, reasons: &mut Vec<String>) {
    let made = |stated: &Stated, files: &CaseFiles| {
        let Stated { start, pages, .. } = *stated;
        map_bytes(files.lent(), start, pages, before.walk)
    };
    let read = |stated: &Stated, address| {
        let found = lookup(stated.map, address, before.codes);
        [found.number, found.offset]
    };
    let mut judge = |holds: bool, what: &str| {
        if !holds {
            reasons.push(format!("{}: {}", before.what, what));
        }
    };
    for (address, ..) in before.stated.lookups {
        let refused = read(&before.stated, *address) == [43, 0];
        judge(refused, "a map with the code is read");
    }
    for (address, number, offset) in P2.lookups {
        let same = read(&P2, *address) == [*number, *offset];
        judge(same, "a map without the code is read otherwise");
    }
    let same = made(&P2, &p2_files()).as_deref() == Ok(P2.map);
    judge(same, "a map without such pages has other bytes");
    let false_places = made(&before.stated, files).as_deref() == Ok(before.made);
    judge(false_places, "a map of such pages has no false places");
    // No reader can tell that these places hold nothing of the page.
    let (address, number, offset) = before.false_place;
    let theirs = exports_map::lookup(before.made, address);
    let ours = lookup(before.made, address, Slip::None);
    for found in [[theirs.number, theirs.offset], [ours.number, ours.offset]] {
        let taken = found == [number, offset];
        judge(taken, "a map made by them is not read now");
    }
}

/// Both readers against sheets and maps that are refused as stated.
fn judge_bad_forms(reasons: &mut Vec<String>) {
    for stated in &STATED_SHEETS {
        let files = Files {
            sheet: stated.0,
            image: &[],
            pagefile: &[],
        };
        let theirs = exports_map::map(files.sheet, &[], &[], 0, 1, &mut []);
        let ours = map(files, 0, 1, &mut [], Slip::None);
        let mut judge = |whose, answer| bad_forms::judge_stated(whose, stated, answer, reasons);
        judge("exported map call", [theirs.number, theirs.length, 0]);
        judge("second map call", [ours.number, ours.length, 0]);
    }
    for stated in &STATED_MAPS {
        let theirs = exports_map::lookup(stated.0, 0xB1_0000);
        let ours = lookup(stated.0, 0xB1_0000, Slip::None);
        let mut judge = |whose, answer| bad_forms::judge_stated(whose, stated, answer, reasons);
        judge("exported lookup", [theirs.number, theirs.offset, 0]);
        judge("second lookup", [ours.number, ours.offset, 0]);
    }
}
