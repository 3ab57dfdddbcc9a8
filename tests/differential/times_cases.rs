//! The fields in which two readers of times are compared, and the times that the papers state.

use crate::common::case_files::{damage_files, damage_tables, other_sheet, CaseFiles};
use crate::common::groups::{in_groups, sheet_of};
use crate::common::many_runs::each_with_many_runs;
use crate::common::memory::{
    canonical, frames_in_runs, Home, Memory, EDGE_PAGES, LAST_LEVEL, PAGE_BYTES,
};
use crate::common::random::Xorshift;
use crate::common::small_case::small_case;
use crate::second::codes::{IMAGE, PAGEFILE};
use crate::second::slip::Slip;
use crate::second::times::{FIELD_BYTES, TICKS_A_SECOND, TICKS_LIMIT, TICKS_TO_1970};
use crate::second::walk;

const PAGE: u64 = PAGE_BYTES as u64;

/// Times at the edges of the rules, each with its name.
pub const EDGE_TICKS: [(&str, u64); 19] = [
    ("0", 0),
    ("1", 1),
    ("2", 2),
    ("a second - 1", TICKS_A_SECOND - 1),
    ("a second", TICKS_A_SECOND),
    ("a second + 1", TICKS_A_SECOND + 1),
    ("2^32 - 1", (1 << 32) - 1),
    ("2^32", 1 << 32),
    ("2^53 - 1", (1 << 53) - 1),
    ("2^53 + 1", (1 << 53) + 1),
    ("1970 - 1", TICKS_TO_1970 - 1),
    ("1970", TICKS_TO_1970),
    ("1970 + 1", TICKS_TO_1970 + 1),
    ("2^63 - 2", TICKS_LIMIT - 2),
    ("2^63 - 1", TICKS_LIMIT - 1),
    ("2^63", TICKS_LIMIT),
    ("2^63 + 1", TICKS_LIMIT + 1),
    ("2^64 - 2", u64::MAX - 1),
    ("2^64 - 1", u64::MAX),
];

/// Hands so many fields' addresses to `take`, the same ones in the same order for the same seed.
pub fn each_field(seed: u64, how_many: u64, take: &mut dyn FnMut(&CaseFiles, u64)) {
    let mut random = Xorshift::seeded(seed);
    let mut fields = Fields {
        take,
        left: how_many,
    };
    while fields.left > 0 {
        let mut memory = match random.below(4) {
            0 => Memory::new(random),
            _ => roomy_memory(random),
        };
        let pages = lay_pages(&mut memory);
        ask_about(&mut memory, &pages, &mut fields);
        random = memory.random;
    }
}

/// Hands fields in the edges of every run to `take`, in memory of more than 32 runs, then with damaged sheets.
pub fn each_field_about_runs(seed: u64, take: &mut dyn FnMut(&CaseFiles, u64)) {
    each_with_many_runs(seed, &mut |many| {
        let mut files = many.take_files();
        let memory = &mut many.memory;
        let pages: Vec<u64> = many.runs.iter().flat_map(|run| run.pages).collect();
        for page in &pages {
            let address = match memory.random.below(2) {
                0 => page + memory.random.below(PAGE - FIELD_BYTES + 1),
                _ => across_end(*page, &mut memory.random),
            };
            let ticks = 1 + memory.random.below(TICKS_LIMIT - 1);
            put_field(&mut files, address, ticks);
            take(&files, address);
        }
        let good_sheet = files.sheet.clone();
        for page in pages.iter().step_by(pages.len() / 8) {
            let fields = memory.sheet_fields();
            other_sheet(&mut files, memory, fields);
            take(&files, *page);
        }
        files.sheet = good_sheet;
        damage_files(&mut files, &mut memory.random);
        take(&files, pages[0]);
    });
}

/// Memory in 1 to 32 runs, with pages enough for all that is laid.
fn roomy_memory(mut random: Xorshift) -> Memory {
    let runs = 1 + random.below(32);
    let lengths: Vec<u64> = (0..runs).map(|_| 48 / runs + random.below(3)).collect();
    let to_top = random.below(4) == 0;
    let frames = frames_in_runs(&lengths, to_top, &mut random);
    Memory::over(frames, random)
}

struct Fields<'t> {
    take: &'t mut dyn FnMut(&CaseFiles, u64),
    left: u64,
}

impl Fields<'_> {
    /// Asks for the time at an address, in most cases one that was put there.
    fn ask(&mut self, files: &mut CaseFiles, address: u64, random: &mut Xorshift) {
        if self.left == 0 {
            return;
        }
        self.left -= 1;
        if random.below(8) > 0 {
            put_field(files, address, any_ticks(random));
        }
        (self.take)(files, address);
    }

    fn ask_some(&mut self, files: &mut CaseFiles, pages: &Pages, some: u64, random: &mut Xorshift) {
        for _ in 0..some {
            let address = match random.below(2) {
                0 => address_in_pair(pick(&pages.pairs, random), random),
                _ => address_about(pick(&pages.single, random), random),
            };
            self.ask(files, address, random);
        }
    }
}

/// The virtual pages of a case.
struct Pages {
    single: Vec<u64>,
    /// Pages whose next page was laid as well, if only by the same large page.
    pairs: Vec<u64>,
}

fn pick(pages: &[u64], random: &mut Xorshift) -> u64 {
    pages[random.below(pages.len() as u64) as usize]
}

/// Lays single pages of every state, and pairs of neighbours of every two kinds.
fn lay_pages(memory: &mut Memory) -> Pages {
    let single = (0..2).map(|_| {
        let prototypes = memory.random.below(5) as u32;
        let odd = match memory.random.below(4) {
            0 => None,
            _ => Some(memory.random.below(u64::from(prototypes) + 1) as u32),
        };
        memory.lay(prototypes, odd).0
    });
    let single = single.collect();
    let mut pairs: Vec<u64> = (0..3).map(|_| lay_pair(memory)).collect();
    match memory.random.below(6) {
        0..=2 => pairs.push(lay_pair_at_edge(memory)),
        3 => pairs.push(lay_before_odd_upper(memory)),
        4 => {
            let level = 2 + memory.random.below(2) as u32;
            pairs.push(memory.lay_large(level).0);
        }
        _ => pairs.extend(&memory.lay_row()[..2]),
    }
    Pages { single, pairs }
}

/// What a page's last entry leads to.
#[derive(Clone, Copy)]
enum Kind {
    Image,
    Pagefile,
    Zeros,
    Odd,
}

/// The kinds of two neighbours: mostly both are found, else one or both are odd.
fn kinds_of_pair(random: &mut Xorshift) -> [Kind; 2] {
    let mut found = || [Kind::Image, Kind::Pagefile, Kind::Zeros][random.below(3) as usize];
    let [first, second] = [found(), found()];
    match random.below(8) {
        0 => [Kind::Odd, second],
        1 => [Kind::Odd, Kind::Odd],
        2 => [first, Kind::Odd],
        _ => [first, second],
    }
}

fn lay_pair(memory: &mut Memory) -> u64 {
    let first = memory.fresh_page();
    lay_pair_from(memory, first)
}

/// A pair on both sides of a canonical edge, or right beside it.
fn lay_pair_at_edge(memory: &mut Memory) -> u64 {
    let edge = EDGE_PAGES[memory.random.below(4) as usize];
    let first = edge.wrapping_sub(PAGE * memory.random.below(2));
    lay_pair_from(memory, first)
}

fn lay_pair_from(memory: &mut Memory, first: u64) -> u64 {
    let [kind, kind_behind] = kinds_of_pair(&mut memory.random);
    lay_at(memory, canonical(first), kind);
    lay_at(memory, canonical(first.wrapping_add(PAGE)), kind_behind);
    first
}

/// A page, and behind it what an odd entry above the last level stands for.
fn lay_before_odd_upper(memory: &mut Memory) -> u64 {
    let level = 1 + memory.random.below(3) as u32;
    let span = PAGE << (9 * (LAST_LEVEL - level));
    let behind = memory.page_beside_tables(level) & !(span - 1);
    let first = canonical(behind.wrapping_sub(PAGE));
    let [kind, _] = kinds_of_pair(&mut memory.random);
    lay_at(memory, first, kind);
    let entry = memory.odd_upper_entry(level);
    memory.put_entry(behind, level, entry);
    first
}

/// Lays a page of a kind, in half of the cases behind prototype entries.
fn lay_at(memory: &mut Memory, page: u64, kind: Kind) {
    let mut entry = entry_of(memory, kind);
    let prototypes = match (memory.random.below(8), kind) {
        (0..=3, _) => 0,
        (4 | 5, _) => 1,
        (6, _) => 1 + memory.random.below(3) as u32,
        (_, Kind::Odd) => 4,
        _ => 3,
    };
    if prototypes > 0 {
        let (mut entry_page, mut home) = memory.lay(prototypes - 1, None);
        // An entry in a page of zeros reads as 0, whatever is put there.
        while matches!(home, Home::Zeros) && memory.random.below(8) > 0 {
            (entry_page, home) = memory.lay(prototypes - 1, None);
        }
        let place = FIELD_BYTES * memory.random.below(PAGE / FIELD_BYTES);
        memory.put_at(home, place, entry);
        entry = memory.prototype(entry_page + place);
    }
    memory.put_entry(page, LAST_LEVEL, entry);
}

fn entry_of(memory: &mut Memory, kind: Kind) -> u64 {
    match kind {
        Kind::Image => {
            let page = memory.take_page();
            let frame = memory.frames[page];
            match memory.random.below(2) {
                0 => memory.transition_in(frame),
                _ => memory.valid_in(frame),
            }
        }
        Kind::Pagefile => {
            // Page 0 of a pagefile cannot be named.
            let pages = (memory.pagefile.len() / PAGE_BYTES).max(2);
            memory.pagefile.resize(pages * PAGE_BYTES, 0xA5);
            let page = 1 + memory.random.below(pages as u64 - 1);
            memory.software(page)
        }
        Kind::Zeros => memory.software(0) | 0x80,
        Kind::Odd => memory.odd_entry(),
    }
}

/// Fields of the case as laid, then with damaged tables, then with a damaged sheet.
fn ask_about(memory: &mut Memory, pages: &Pages, fields: &mut Fields) {
    let sheet_fields = memory.sheet_fields();
    let mut files = CaseFiles {
        sheet: sheet_of(&sheet_fields),
        image: std::mem::take(&mut memory.image),
        pagefile: std::mem::take(&mut memory.pagefile),
    };
    for pair in &pages.pairs {
        for _ in 0..4 {
            let address = address_in_pair(*pair, &mut memory.random);
            fields.ask(&mut files, address, &mut memory.random);
        }
    }
    for page in &pages.single {
        let address = address_about(*page, &mut memory.random);
        fields.ask(&mut files, address, &mut memory.random);
    }
    damage_tables(&mut files.image, &memory.put, &mut memory.random);
    fields.ask_some(&mut files, pages, 2, &mut memory.random);
    let good_sheet = files.sheet.clone();
    other_sheet(&mut files, memory, sheet_fields);
    fields.ask_some(&mut files, pages, 1, &mut memory.random);
    if memory.random.below(4) > 0 {
        files.sheet = good_sheet;
    }
    match memory.random.below(8) {
        0 => files.sheet = in_groups(1, 7),
        _ => damage_files(&mut files, &mut memory.random),
    }
    fields.ask_some(&mut files, pages, 1, &mut memory.random);
}

/// Mostly across the two pages, else from a page's start, up to the first one's end or anywhere in the two.
fn address_in_pair(first: u64, random: &mut Xorshift) -> u64 {
    let place = match random.below(12) {
        0 | 1 => PAGE * random.below(2),
        2 | 3 => PAGE - FIELD_BYTES,
        4 => FIELD_BYTES * random.below(2 * PAGE / FIELD_BYTES),
        5 => random.below(2 * PAGE),
        _ => return across_end(first, random),
    };
    first.wrapping_add(place)
}

/// Mostly in the page, else across one of its ends or at another address like it.
fn address_about(page: u64, random: &mut Xorshift) -> u64 {
    let address = page + random.below(PAGE);
    match random.below(12) {
        0 => across_end(page, random),
        1 => across_end(page.wrapping_sub(PAGE), random),
        2 => address ^ 1 << (47 + random.below(17)),
        3 => canonical(address ^ 1 << (12 + random.below(36))),
        4 => random.next(),
        _ => address,
    }
}

/// From one of the page's last seven bytes on.
fn across_end(page: u64, random: &mut Xorshift) -> u64 {
    page.wrapping_add(PAGE - 1 - random.below(FIELD_BYTES - 1))
}

fn any_ticks(random: &mut Xorshift) -> u64 {
    let second = TICKS_A_SECOND * (random.up_to_bits(40) % (TICKS_LIMIT / TICKS_A_SECOND));
    match random.below(15) {
        0..=6 => EDGE_TICKS[random.below(EDGE_TICKS.len() as u64) as usize].1,
        7 => second,
        8 => second + TICKS_A_SECOND - 1,
        9 => random.next() << 32,
        10 => random.next() >> 32,
        11 => TICKS_TO_1970 + random.up_to_bits(55),
        12 => random.up_to_bits(63),
        13 => 0,
        _ => random.next(),
    }
}

/// Puts the bytes of a field where their addresses lead, if they lead into a file.
fn put_field(files: &mut CaseFiles, address: u64, ticks: u64) {
    let bytes = ticks.to_le_bytes();
    let in_first = FIELD_BYTES.min(PAGE - address % PAGE);
    let (first, second) = bytes.split_at(in_first as usize);
    put_bytes(files, address, first);
    put_bytes(files, address.wrapping_add(in_first), second);
}

/// Puts bytes of one page.
fn put_bytes(files: &mut CaseFiles, address: u64, bytes: &[u8]) {
    let answer = walk::resolve(files.lent(), address, Slip::None);
    let file = match answer.number {
        IMAGE => &mut files.image,
        PAGEFILE => &mut files.pagefile,
        _ => return,
    };
    let start = answer.offset as usize;
    file[start..start + bytes.len()].copy_from_slice(bytes);
}

/// A field of so many ticks, with the number, seconds and rest that the papers state for it.
pub struct Stated {
    pub ticks: u64,
    pub number: u64,
    pub seconds: f64,
    pub rest: f64,
}

/// Where each stated field is.
pub const STATED_ADDRESS: u64 = 0xB1_0018;

impl Stated {
    pub fn files(&self) -> CaseFiles {
        small_case(&[(0x3880, 0x6001), (0x5018, self.ticks)])
    }
}

pub const STATED: &[Stated] = &[
    Stated {
        ticks: 116_444_736_000_000_000,
        number: 0,
        seconds: 11_644_473_600.0,
        rest: 0.0,
    },
    Stated {
        ticks: 1,
        number: 0,
        seconds: 0.0,
        rest: 1.0,
    },
    Stated {
        ticks: 9_223_372_036_854_775_807,
        number: 0,
        seconds: 922_337_203_685.0,
        rest: 4_775_807.0,
    },
    Stated {
        ticks: 0,
        number: 60,
        seconds: 0.0,
        rest: 0.0,
    },
    Stated {
        ticks: 9_223_372_036_854_775_808,
        number: 61,
        seconds: 0.0,
        rest: 0.0,
    },
];
