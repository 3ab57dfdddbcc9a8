//! The ranges on which two map calls are compared, and the case that the paper states.

use crate::common::bad_forms::{BAD_FORM_CASES, SHEET};
use crate::common::case_files::{damage_files, damage_tables, other_sheet, CaseFiles};
use crate::common::many_runs::{each_with_many_runs, EDGES};
use crate::common::memory::{canonical, Memory};
use crate::common::random::Xorshift;
use crate::common::small_case::small_case;
use crate::other_maps::{other_map, OtherMap};
use crate::ranges::{lay_giant_range, lay_range, lay_wide_range, Range, HALF_ENDS, PAGE};
use crate::second::map::{map_bytes, read_map, MOST_PAGES};
use crate::second::slip::Slip;

/// A map call, and lookups in what it writes and in other maps.
pub struct Question {
    pub start: u64,
    pub pages: u64,
    pub room: usize,
    /// The addresses to look up in the map, if one is written.
    pub addresses: Vec<u64>,
    pub others: Vec<OtherMap>,
}

/// Hands so many questions to `take`, the same ones in the same order for the same seed.
pub fn each_question(seed: u64, how_many: u64, take: &mut dyn FnMut(&CaseFiles, &Question)) {
    let mut random = Xorshift::seeded(seed);
    let mut questions = Questions {
        take,
        asked: 0,
        left: how_many,
    };
    let mut made = 0;
    while questions.left > 0 {
        let mut memory = Memory::new(random);
        let long = lay_long(&mut memory, made);
        let short = lay_short(&mut memory);
        ask_about(&mut memory, &long, &short, &mut questions);
        random = memory.random;
        made += 1;
    }
}

/// Hands questions about the edges of every run to `take`, in memory of more than 32 runs, then with damaged sheets.
pub fn each_question_about_runs(seed: u64, take: &mut dyn FnMut(&CaseFiles, &Question)) {
    each_with_many_runs(seed, &mut |many| {
        let mut files = many.take_files();
        let memory = &mut many.memory;
        let ranges: Vec<Range> = many.runs.iter().map(|run| edges(run.pages[0], 1)).collect();
        let mut ask = |files: &CaseFiles, range: Range, random: &mut Xorshift| {
            take(files, &question(files, range, |length, _| length, random))
        };
        for range in &ranges {
            ask(&files, *range, &mut memory.random);
        }
        let all = edges(ranges[0].start, ranges.len());
        ask(&files, all, &mut memory.random);
        for range in ranges.iter().step_by(ranges.len() / 8) {
            let fields = memory.sheet_fields();
            other_sheet(&mut files, memory, fields);
            ask(&files, *range, &mut memory.random);
        }
        ask_bad_forms(memory, &mut files, &ranges, take);
    });
}

/// Hands questions to `take` with a bad form in each kind of field of a sheet.
pub fn each_question_about_forms(seed: u64, take: &mut dyn FnMut(&CaseFiles, &Question)) {
    let mut random = Xorshift::seeded(seed.rotate_left(32));
    for _ in 0..BAD_FORM_CASES {
        let mut memory = Memory::new(random);
        let ranges = lay_short(&mut memory);
        let mut files = CaseFiles::taken_from(&mut memory);
        ask_bad_forms(&mut memory, &mut files, &ranges, take);
        random = memory.random;
    }
}

fn ask_bad_forms(
    memory: &mut Memory,
    files: &mut CaseFiles,
    ranges: &[Range],
    take: &mut dyn FnMut(&CaseFiles, &Question),
) {
    let fields = memory.sheet_fields();
    SHEET.each_bad_form(&fields, &mut memory.random, &mut |sheet, random| {
        files.sheet = sheet;
        let range = ranges[random.below(ranges.len() as u64) as usize];
        take(
            files,
            &question(files, range_about(range, random), room_for, random),
        );
    });
}

/// The pages of the edges of so many runs.
fn edges(start: u64, runs: usize) -> Range {
    Range {
        start,
        pages: (runs * EDGES) as u64,
    }
}

/// Some ranges of thousands of pages, few of 2^20.
fn lay_long(memory: &mut Memory, made: u64) -> Vec<Range> {
    let mut ranges = Vec::new();
    if made % 900 == 1 {
        ranges.push(lay_giant_range(memory));
    }
    if made % 12 == 2 {
        ranges.push(lay_wide_range(memory));
    }
    ranges
}

/// Ranges of some pages, and pages laid alone or amid a large page.
fn lay_short(memory: &mut Memory) -> Vec<Range> {
    let mut ranges = Vec::new();
    for _ in 0..1 + memory.random.below(3) {
        ranges.push(lay_range(memory));
    }
    if memory.random.below(4) == 0 {
        let [start, ..] = memory.lay_row();
        ranges.push(Range { start, pages: 3 });
    }
    for _ in 0..2 {
        let prototypes = memory.random.below(5) as u32;
        let odd = match memory.random.below(2) {
            0 => None,
            _ => Some(memory.random.below(u64::from(prototypes) + 1) as u32),
        };
        let (start, _) = memory.lay(prototypes, odd);
        ranges.push(Range { start, pages: 1 });
    }
    if memory.random.below(2) == 0 {
        let start = memory.lay_reserved();
        ranges.push(Range { start, pages: 1 });
    }
    ranges
}

/// Questions about the case as laid, then with damaged tables, then with a damaged sheet.
fn ask_about(memory: &mut Memory, long: &[Range], short: &[Range], questions: &mut Questions) {
    let fields = memory.sheet_fields();
    let mut files = CaseFiles::taken_from(memory);
    for range in long.iter().chain(short) {
        questions.ask(&files, *range, &mut memory.random);
    }
    questions.ask_some(&files, short, 4, &mut memory.random);
    damage_tables(&mut files.image, &memory.put, &mut memory.random);
    questions.ask_some(&files, short, 3, &mut memory.random);
    let good_sheet = files.sheet.clone();
    other_sheet(&mut files, memory, fields);
    questions.ask_some(&files, short, 2, &mut memory.random);
    if memory.random.below(4) > 0 {
        files.sheet = good_sheet;
    }
    damage_files(&mut files, &mut memory.random);
    questions.ask_some(&files, short, 2, &mut memory.random);
}

struct Questions<'t> {
    take: &'t mut dyn FnMut(&CaseFiles, &Question),
    asked: u64,
    left: u64,
}

impl Questions<'_> {
    fn ask_some(&mut self, files: &CaseFiles, ranges: &[Range], some: u64, random: &mut Xorshift) {
        for _ in 0..some {
            let laid = ranges[random.below(ranges.len() as u64) as usize];
            let range = match self.asked % 5000 {
                7 => longest_range(laid, random),
                _ => range_about(laid, random),
            };
            self.ask(files, range, random);
        }
    }

    fn ask(&mut self, files: &CaseFiles, range: Range, random: &mut Xorshift) {
        if self.left == 0 {
            return;
        }
        self.left -= 1;
        self.asked += 1;
        (self.take)(files, &question(files, range, room_for, random));
    }
}

/// A question about a range; its room goes by the length of the map.
fn question(
    files: &CaseFiles,
    range: Range,
    room: fn(usize, &mut Xorshift) -> usize,
    random: &mut Xorshift,
) -> Question {
    let Range { start, pages } = range;
    let bytes = map_bytes(files.lent(), start, pages, Slip::None).unwrap_or_default();
    let written = read_map(&bytes).ok();
    Question {
        start,
        pages,
        room: room(bytes.len(), random),
        addresses: (0..4).map(|_| address_about(range, random)).collect(),
        others: (0..3)
            .map(|_| other_map(written.as_ref(), random))
            .collect(),
    }
}

/// Mostly exactly enough room, or a byte less or more.
fn room_for(length: usize, random: &mut Xorshift) -> usize {
    match random.below(12) {
        0 | 1 => length.saturating_sub(1),
        2 => length + 1,
        3 => 0,
        4 => random.below(length as u64 + 1) as usize,
        5 => random.below(16) as usize,
        6 | 7 => length + random.below(100) as usize,
        _ => length,
    }
}

/// A range like one that was laid, or a wrong one.
fn range_about(laid: Range, random: &mut Xorshift) -> Range {
    match random.below(8) {
        0 => laid,
        1 | 2 => {
            let first = random.below(laid.pages);
            Range {
                start: canonical(laid.start.wrapping_add(first * PAGE)),
                pages: 1 + random.below(laid.pages - first),
            }
        }
        3 | 4 => {
            let before = random.below(4) * PAGE;
            Range {
                start: canonical(laid.start.wrapping_sub(before)),
                pages: laid.pages + random.below(8),
            }
        }
        5 => range_at_end(random),
        6 => Range {
            pages: count_out_of_limits(laid.pages, random),
            ..laid
        },
        _ => Range {
            start: wrong_start(laid.start, random),
            ..laid
        },
    }
}

/// A range that ends with its half or some pages past it.
fn range_at_end(random: &mut Xorshift) -> Range {
    let end = HALF_ENDS[random.below(2) as usize];
    let inside = match random.below(8) {
        0 => MOST_PAGES,
        1 => MOST_PAGES + 1,
        _ => 1 + random.below(4),
    };
    let past = match random.below(3) {
        0 if inside < MOST_PAGES => 0,
        1 => 1,
        _ => 1 + random.up_to_bits(20),
    };
    Range {
        start: canonical(end.wrapping_sub(inside * PAGE)),
        pages: inside + past,
    }
}

/// No pages, too many, or a number that looks good in fewer bits.
fn count_out_of_limits(pages: u64, random: &mut Xorshift) -> u64 {
    match random.below(8) {
        0 | 1 => 0,
        2 | 3 => MOST_PAGES + 1,
        4 => MOST_PAGES + 1 + random.up_to_bits(36),
        5 => pages | 1 << (20 + random.below(44)),
        6 => pages.wrapping_neg(),
        _ => u64::MAX,
    }
}

/// A start that is not canonical or not at a page.
fn wrong_start(start: u64, random: &mut Xorshift) -> u64 {
    match random.below(6) {
        0 => start ^ 1 << (47 + random.below(17)),
        1 => start & ((1 << 47) - 1) | random.next() << 47,
        2 => start ^ 1 << random.below(12),
        3 => start | 0xFFF,
        4 => start | 0x800,
        _ => start | random.below(PAGE),
    }
}

/// 2^20 pages, or one fewer, that mostly have no tables.
fn longest_range(laid: Range, random: &mut Xorshift) -> Range {
    let pages = MOST_PAGES - random.below(2);
    let end = HALF_ENDS[random.below(2) as usize];
    let start = match random.below(3) {
        0 => end.wrapping_sub(pages * PAGE),
        1 => end.wrapping_add(1 << 47),
        _ => laid.start & !0xFF_FFFF_FFFF,
    };
    Range {
        start: canonical(start),
        pages,
    }
}

/// An address in a range or beside it, or one that is not canonical.
fn address_about(range: Range, random: &mut Xorshift) -> u64 {
    let pages = range.pages.clamp(1, MOST_PAGES);
    let page = match random.below(8) {
        0 => 0,
        1 => pages - 1,
        2 => pages,
        3 => u64::MAX,
        _ => random.below(pages),
    };
    let place = match random.below(4) {
        0 => 0,
        1 => PAGE - 1,
        _ => random.below(PAGE),
    };
    let address = range.start.wrapping_add(page.wrapping_mul(PAGE)) | place;
    match random.below(16) {
        0 => address ^ 1 << (47 + random.below(17)),
        1 => canonical(address ^ 1 << 47),
        2 => canonical(address ^ 1 << (12 + random.below(35))),
        3 => random.next(),
        _ => address,
    }
}

/// A stated map and its lookups.
pub struct Stated {
    pub start: u64,
    pub pages: u64,
    pub map: &'static [u8],
    /// Address, number and offset of each lookup.
    pub lookups: &'static [(u64, u64, u64)],
}

/// P2, whole.
pub const P2: Stated = Stated {
    start: 0xB1_0000,
    pages: 3,
    map: &[0x01, 0x90, 0x16, 0x03, 0x01, 0x02, 0x05, 0x16, 0x01],
    lookups: &[
        (0xB1_0000, 1, 0x5000),
        (0xB1_0ABC, 1, 0x5ABC),
        (0xB1_1FFF, 1, 0x6FFF),
        (0xB1_2000, 22, 0),
        (0xB1_2FFF, 22, 0),
        (0xB0_FFFF, 41, 0),
        (0xB1_3000, 41, 0),
        (0x8000_00B1_0000, 20, 0),
        (0xFFFF_0000_00B1_0000, 20, 0),
        (0xFFFF_8000_00B1_0000, 41, 0),
    ],
};

/// Image pages 5 and 6, then an entry of 0.
pub fn p2_files() -> CaseFiles {
    small_case(&[(0x3880, 0x6001), (0x3888, 0x7001), (0x3890, 0)])
}

/// Pagefile page 1, then pages 2 and 3 with bit 22 set, the last one by a prototype entry (02, order 5).
pub const STORE: Stated = Stated {
    start: 0xB1_0000,
    pages: 3,
    map: &[0x01, 0x90, 0x16, 0x03, 0x02, 0x01, 0x01, 0x1F, 0x02],
    lookups: &[
        (0xB1_0ABC, 2, 0x1ABC),
        (0xB1_1000, 31, 0),
        (0xB1_2FFF, 31, 0),
        (0xB1_3000, 41, 0),
        (0x8000_00B1_0000, 20, 0),
    ],
};

/// The map of the same pages by the rules before: pages 1 to 3 of the pagefile.
pub const STORE_BEFORE: &[u8] = &[0x01, 0x90, 0x16, 0x03, 0x02, 0x03, 0x01];

pub fn store_files() -> CaseFiles {
    let files = small_case(&[
        (0x3880, 0x1_0000_0080),
        (0x3888, 0x2_0040_0080),
        (0x3890, 0x00B1_3008_0400),
        (0x3898, 0x6001),
        (0x5008, 0x3_0040_0080),
    ]);
    CaseFiles {
        pagefile: vec![0; 4 * PAGE as usize],
        ..files
    }
}

/// Image page 5, then a 2 MiB page whose entry has bit 13 set, and whose second and third frames are in the run (02,
/// order 8).
pub const RESERVED: Stated = Stated {
    start: 0xBF_F000,
    pages: 4,
    map: &[0x01, 0xFF, 0x17, 0x04, 0x01, 0x01, 0x05, 0x21, 0x03],
    lookups: &[
        (0xBF_FABC, 1, 0x5ABC),
        (0xC0_0000, 33, 0),
        (0xC0_2FFF, 33, 0),
        (0xC0_3000, 41, 0),
        (0x8000_00C0_0000, 20, 0),
    ],
};

/// The map of the same pages by the rules before: frame 0 in no run, then image pages 0 and 1.
pub const RESERVED_BEFORE: &[u8] = &[
    0x01, 0xFF, 0x17, 0x04, 0x01, 0x01, 0x05, 0x17, 0x01, 0x01, 0x02, 0x00,
];

pub fn reserved_files() -> CaseFiles {
    small_case(&[(0x3FF8, 0x6001), (0x2030, 0x2081)])
}
