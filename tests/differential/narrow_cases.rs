//! The cases of modes 1 and 2 on which two readers are compared in every call, and those that the papers state.

use crate::common::bad_forms::{BAD_FORM_CASES, SHEET_WITH_MODE};
use crate::common::case_files::{damage_files, CaseFiles};
use crate::common::groups::sheet_of;
use crate::common::memory::{sheet_fields, PAGE_BYTES};
use crate::common::random::Xorshift;
use crate::narrow_memory::{levels, NarrowMemory, ADDRESS_LIMIT};
use crate::second::runs::NUMBERS_A_RUN;
use crate::second::sheet::{read_sheet, Run, LAST_PLACE, PAE, PLAIN};
use crate::second::sheet_writer::{sheet_bytes, Given};
use crate::second::slip::Slip;

const PAGE: u64 = PAGE_BYTES as u64;

/// The longest buffers that a question lends: for bytes read, and for a map.
const MOST_ROOM: u64 = 3 * PAGE;
const MAP_ROOM: usize = 1 << 14;

/// The runs of memory, and of memory whose sheet is damaged at every place.
const MOST_RUNS: u64 = 12;
const FEW_RUNS: u64 = 4;

/// In how many cases of each mode the sheet is damaged at every place.
const DAMAGED_CASES: u64 = 25;

/// What every call is asked about one case.
pub struct Question {
    pub address: u64,
    /// A read of so many bytes into a buffer of some room.
    pub start: u64,
    pub n: u64,
    pub room: usize,
    pub time: u64,
    /// A map of so many pages, and addresses to look up in it.
    pub map_start: u64,
    pub pages: u64,
    pub map_room: usize,
    pub lookups: [u64; 2],
    /// Where the search for a block begins.
    pub from: u64,
    pub head: u64,
    pub list_room: usize,
    /// The numbers for which the case call has room.
    pub case_room: usize,
    pub sheet: SheetAsked,
}

/// A sheet to be written into a buffer of some room.
pub struct SheetAsked {
    pub directory_page: u64,
    pub mode: u64,
    pub place: u64,
    pub starts: Vec<u64>,
    pub lengths: Vec<u64>,
    pub room: usize,
}

impl SheetAsked {
    pub fn given(&self) -> Given<'_> {
        Given {
            directory_page: self.directory_page,
            mode: self.mode,
            place: self.place,
            starts: &self.starts,
            lengths: &self.lengths,
        }
    }
}

/// Takes the mode for which a case was made, the case and a question about it.
pub type Take<'t> = &'t mut dyn FnMut(u64, &CaseFiles, &Question);

/// Hands so many questions in each mode to `take`, the same ones in the same order for the same seed.
pub fn each_question(seed: u64, how_many: u64, take: Take) {
    let mut random = Xorshift::seeded(seed);
    for mode in [PLAIN, PAE] {
        let mut left = how_many;
        while left > 0 {
            let mut narrow = NarrowMemory::new(mode, MOST_RUNS, random);
            let pages = lay_pages(&mut narrow);
            ask_about(&mut narrow, &pages, &mut |files, question| {
                if left > 0 {
                    left -= 1;
                    take(mode, files, question);
                }
            });
            random = narrow.memory.random;
        }
    }
}

/// Hands questions to `take` with a bad form in each kind of field of a sheet of edition 2.
pub fn each_bad_form(seed: u64, take: Take) {
    each_laid(
        seed.rotate_left(32),
        BAD_FORM_CASES,
        MOST_RUNS,
        &mut |narrow, files, pages| {
            let fields = narrow.sheet_fields();
            let mut sheets = Vec::new();
            SHEET_WITH_MODE.each_bad_form(&fields, &mut narrow.memory.random, &mut |sheet, _| {
                sheets.push(sheet)
            });
            for sheet in sheets {
                files.sheet = sheet;
                let question = question_about(narrow, files, pages);
                take(narrow.mode, files, &question);
            }
        },
    );
}

/// Hands questions to `take` with sheets of both editions damaged at every place.
pub fn each_damaged_sheet(seed: u64, take: Take) {
    each_laid(
        !seed,
        DAMAGED_CASES,
        FEW_RUNS,
        &mut |narrow, files, pages| {
            let fields = narrow.sheet_fields();
            let edition_1 = [&[1, fields[1]], &fields[4..]].concat();
            for sheet in [sheet_of(&fields), sheet_of(&edition_1)] {
                for place in 0..=sheet.len() {
                    for damaged in damaged_at(&sheet, place, &mut narrow.memory.random) {
                        files.sheet = damaged;
                        let question = question_about(narrow, files, pages);
                        take(narrow.mode, files, &question);
                    }
                }
            }
        },
    );
}

/// A sheet cut at a place, with a byte put there, or with its byte there changed in each bit, dropped or doubled.
fn damaged_at(sheet: &[u8], place: usize, random: &mut Xorshift) -> Vec<Vec<u8>> {
    let (before, behind) = sheet.split_at(place);
    let mut damaged = vec![
        before.to_vec(),
        [before, &[random.next() as u8], behind].concat(),
    ];
    if let [byte, after @ ..] = behind {
        let changed = (0..8).map(|bit| vec![byte ^ 1 << bit]);
        let others = changed.chain([vec![], vec![*byte, *byte], vec![random.next() as u8]]);
        damaged.extend(others.map(|other| [before, &other[..], after].concat()));
    }
    damaged
}

/// Lays so many cases in each mode.
fn each_laid(
    seed: u64,
    how_many: u64,
    most_runs: u64,
    take: &mut dyn FnMut(&mut NarrowMemory, &mut CaseFiles, &[u64]),
) {
    let mut random = Xorshift::seeded(seed);
    for mode in [PLAIN, PAE] {
        for _ in 0..how_many {
            let mut narrow = NarrowMemory::new(mode, most_runs, random);
            let pages = lay_pages(&mut narrow);
            let mut files = take_files(&mut narrow);
            take(&mut narrow, &mut files, &pages);
            random = narrow.memory.random;
        }
    }
}

fn lay_pages(narrow: &mut NarrowMemory) -> Vec<u64> {
    let mut pages = Vec::new();
    if narrow.memory.random.below(2) == 0 {
        pages.extend(narrow.lay_row());
    }
    for _ in 0..3 + narrow.memory.random.below(8) {
        pages.push(narrow.lay());
    }
    pages
}

/// The files of laid memory, which keeps none of its bytes.
fn take_files(narrow: &mut NarrowMemory) -> CaseFiles {
    CaseFiles {
        sheet: sheet_of(&narrow.sheet_fields()),
        image: std::mem::take(&mut narrow.memory.image),
        pagefile: std::mem::take(&mut narrow.memory.pagefile),
    }
}

/// Questions about the case as laid, then with damaged tables, then with other or damaged sheets and lengths.
fn ask_about(
    narrow: &mut NarrowMemory,
    pages: &[u64],
    take: &mut dyn FnMut(&CaseFiles, &Question),
) {
    let mut files = take_files(narrow);
    let mut ask = |narrow: &mut NarrowMemory, files: &CaseFiles, page: u64| {
        let question = question_in(narrow, files, page);
        take(files, &question);
    };
    for page in pages {
        ask(narrow, &files, *page);
    }
    for _ in 0..3 {
        damage_tables(&mut files.image, narrow);
        let page = any_of(pages, &mut narrow.memory.random);
        ask(narrow, &files, page);
    }
    let good_sheet = files.sheet.clone();
    for _ in 0..2 {
        files.sheet = other_sheet(narrow);
        let page = any_of(pages, &mut narrow.memory.random);
        ask(narrow, &files, page);
    }
    if narrow.memory.random.below(4) > 0 {
        files.sheet = good_sheet;
    }
    match narrow.memory.random.below(4) {
        0 => files.pagefile.push(0),
        _ => damage_files(&mut files, &mut narrow.memory.random),
    }
    let page = any_of(pages, &mut narrow.memory.random);
    ask(narrow, &files, page);
}

/// Flips a few bits in entries of tables.
fn damage_tables(image: &mut [u8], narrow: &mut NarrowMemory) {
    let bits = 8 * levels(narrow.mode)[0].bytes as u64;
    let random = &mut narrow.memory.random;
    for _ in 0..1 + random.below(3) {
        let entry = narrow.put[random.below(narrow.put.len() as u64) as usize];
        let bit = random.below(bits) as usize;
        image[entry + bit / 8] ^= 1 << (bit % 8);
    }
}

/// Another sheet for the same image: mostly accepted, with another directory, mode or place, or other frames.
fn other_sheet(narrow: &mut NarrowMemory) -> Vec<u8> {
    let mut fields = narrow.sheet_fields();
    let last_gap = fields.len() - 2;
    match narrow.memory.random.below(12) {
        0 | 1 => fields[1] = narrow.frame_outside(),
        2 => fields[1] = narrow.memory.random.up_to_bits(36),
        3 => {
            let page = narrow.memory.any_page();
            fields[1] = narrow.memory.frames[page];
        }
        4 => fields[0] = narrow.memory.random.below(4),
        5 => fields[2] = narrow.memory.random.below(5),
        6 => fields[2] = PLAIN + PAE - fields[2],
        7 => fields[3] = narrow.memory.random.below(LAST_PLACE + 8),
        8 => fields[3] = [0, 1, LAST_PLACE, LAST_PLACE + 1][narrow.memory.random.below(4) as usize],
        9 => fields[5] += 1,
        10 => fields[last_gap] += 1,
        _ => drop(fields.splice(0..4, [1, fields[1]])),
    }
    sheet_of(&fields)
}

fn any_of(pages: &[u64], random: &mut Xorshift) -> u64 {
    pages[random.below(pages.len() as u64) as usize]
}

fn question_about(narrow: &mut NarrowMemory, files: &CaseFiles, pages: &[u64]) -> Question {
    let page = any_of(pages, &mut narrow.memory.random);
    question_in(narrow, files, page)
}

/// What every call is asked about a page and what lies beside it.
fn question_in(narrow: &mut NarrowMemory, files: &CaseFiles, page: u64) -> Question {
    let sheet = sheet_asked(narrow);
    let case_room = case_room(narrow);
    let random = &mut narrow.memory.random;
    let address = address_in(page, random);
    let start = read_start(page, address, random);
    let n = length_from(start, random);
    let (map_start, pages) = range_about(page, random);
    let in_page = page + 8 * random.below(PAGE / 8);
    let image_length = files.image.len() as u64;
    Question {
        address,
        start,
        n,
        room: room_for(n, random),
        time: time_address(in_page, address, random),
        map_start,
        pages,
        map_room: match random.below(4) {
            0 => random.below(24) as usize,
            _ => MAP_ROOM,
        },
        lookups: [0, 1].map(|_| lookup_in(map_start, pages, random)),
        from: match random.below(4) {
            0 => image_length + random.below(9),
            1 => random.next(),
            _ => random.below(image_length + 1),
        },
        head: match random.below(4) {
            0 => address,
            1 => random.next(),
            _ => in_page,
        },
        list_room: random.below(4) as usize,
        case_room,
        sheet,
    }
}

/// Where a read begins: in a page, at its end, or before it; the last page more often than it is laid.
fn read_start(page: u64, address: u64, random: &mut Xorshift) -> u64 {
    let page = last_page_or(page, random);
    match random.below(4) {
        0 => address,
        1 => page + PAGE - 1 - random.below(16),
        2 if page > 0 => page - 1 - random.below(16),
        _ => page,
    }
}

fn time_address(in_page: u64, address: u64, random: &mut Xorshift) -> u64 {
    let page = last_page_or(in_page - in_page % PAGE, random);
    match random.below(4) {
        0 => page + PAGE - 1 - random.below(9),
        1 => page + PAGE - 8,
        2 => in_page,
        _ => address,
    }
}

fn last_page_or(page: u64, random: &mut Xorshift) -> u64 {
    match random.below(6) {
        0 => ADDRESS_LIMIT - PAGE,
        _ => page,
    }
}

/// An address in a page, mostly; else at or past 2^32, or anywhere.
fn address_in(page: u64, random: &mut Xorshift) -> u64 {
    let address = page + place_in_page(random);
    match random.below(24) {
        0 => ADDRESS_LIMIT,
        1 => ADDRESS_LIMIT - 1,
        2 => ADDRESS_LIMIT + address,
        3 => address | 0xFFFF_FFFF_0000_0000,
        4 => address ^ 1 << (32 + random.below(32)),
        5 => address ^ 1 << (12 + random.below(20)),
        6 => random.next(),
        7 => random.below(ADDRESS_LIMIT),
        _ => address,
    }
}

fn place_in_page(random: &mut Xorshift) -> u64 {
    match random.below(4) {
        0 => 0,
        1 => PAGE - 1,
        _ => random.below(PAGE),
    }
}

/// So many bytes from an address: up to the end of the addresses, past it, up to a page's end, or a few.
fn length_from(start: u64, random: &mut Xorshift) -> u64 {
    let to_limit = ADDRESS_LIMIT.saturating_sub(start);
    let near = to_limit < 2 * PAGE;
    match random.below(8) {
        0 | 1 if near => to_limit,
        2 | 3 if near => to_limit + 1 + random.below(16),
        4 => random.below(2 * PAGE),
        5 => random.below(2) * (PAGE - start % PAGE + random.below(2)),
        _ => 1 + random.below(64),
    }
}

/// Mostly enough room, often no more than that.
fn room_for(n: u64, random: &mut Xorshift) -> usize {
    let room = match random.below(16) {
        0 => n.saturating_sub(1),
        1..=4 => n + random.below(64),
        _ => n,
    };
    room.min(MOST_ROOM) as usize
}

/// A range around a page: mostly allowed, often up to 2^32, else wrong for its start, its count or its end.
fn range_about(page: u64, random: &mut Xorshift) -> (u64, u64) {
    let start = page.saturating_sub(PAGE * random.below(4));
    let to_limit = (ADDRESS_LIMIT - start) / PAGE;
    let few = match random.below(64) {
        0 => 1 + random.below(1100),
        _ => 1 + random.below(12),
    };
    let allowed = few.min(to_limit);
    let last_few = ADDRESS_LIMIT - PAGE * few;
    match random.below(24) {
        0 => (start + 1 + random.below(PAGE - 1), allowed),
        1 => (start, 0),
        2 | 3 => (last_few, few + 1),
        4 => (ADDRESS_LIMIT + PAGE * random.below(2), few),
        5 => (start, (1 << 52) + allowed),
        6 => (start, u64::MAX - random.below(2)),
        7 => (start, (1 << 20) + 1 + random.below(2)),
        8 => (random.next() & !(PAGE - 1), few),
        9 | 10 => (last_few, few),
        _ => (start, allowed),
    }
}

/// An address in a range, beside it, or past what the mode has.
fn lookup_in(start: u64, pages: u64, random: &mut Xorshift) -> u64 {
    let inside = start.wrapping_add(PAGE * random.below(pages.clamp(1, 1 << 20)));
    let address = inside.wrapping_add(random.below(PAGE));
    match random.below(12) {
        0 => start.wrapping_sub(1),
        1 => start.wrapping_add(PAGE.wrapping_mul(pages)),
        2 => address ^ 1 << (32 + random.below(15)),
        3 => address ^ 1 << (47 + random.below(17)),
        _ => address,
    }
}

/// One short, less, exact, or longer than the runs take.
fn case_room(narrow: &mut NarrowMemory) -> usize {
    let wanted = NUMBERS_A_RUN * narrow.sheet_fields()[4] as usize;
    let random = &mut narrow.memory.random;
    match random.below(4) {
        0 => wanted - 1 - random.below(2) as usize,
        1 => wanted + random.below(3) as usize,
        _ => wanted,
    }
}

/// The case's own sheet to be written, in some questions with a number that is wrong, or with little room.
fn sheet_asked(narrow: &mut NarrowMemory) -> SheetAsked {
    let runs = read_sheet(&sheet_of(&narrow.sheet_fields()), Slip::None);
    let runs: Vec<Run> = runs.map(|case| case.runs).unwrap_or_default();
    let mut asked = SheetAsked {
        directory_page: narrow.sheet_fields()[1],
        mode: narrow.mode,
        place: narrow.place,
        starts: runs.iter().map(|run| run.first_frame).collect(),
        lengths: runs.iter().map(|run| run.pages).collect(),
        room: 0,
    };
    let random = &mut narrow.memory.random;
    let run = random.below(asked.starts.len() as u64) as usize;
    match random.below(16) {
        0 => asked.mode = [0, 3, 4, u64::MAX][random.below(4) as usize],
        1 => asked.place = [0, 1, LAST_PLACE + 1, u64::MAX][random.below(4) as usize],
        2 => asked.lengths[run] = 0,
        3 => asked.starts[run] |= 1 << (36 + random.below(28)),
        4 => drop(asked.starts.pop()),
        5 => split_run(&mut asked, run),
        _ => {}
    }
    let length = sheet_bytes(&asked.given(), Slip::None).len();
    asked.room = match random.below(4) {
        0 => length.saturating_sub(1 + random.below(3) as usize),
        1 => length + random.below(4) as usize,
        _ => length,
    };
    asked
}

/// Two runs that touch in the place of one.
fn split_run(asked: &mut SheetAsked, run: usize) {
    let pages = asked.lengths[run];
    if pages > 1 {
        asked.lengths[run] = 1;
        asked.starts.insert(run + 1, asked.starts[run] + 1);
        asked.lengths.insert(run + 1, pages - 1);
    }
}

/// A case whose answer a paper states.
pub struct Stated {
    pub what: &'static str,
    pub mode: u64,
    pub place: u64,
    pub directory_page: u64,
    /// Entries with their physical addresses; no other frames but these and the found one are in a run.
    pub entries: &'static [(u64, u64)],
    pub address: u64,
    pub number: u64,
    /// The physical address for 1, else 0.
    pub found: u64,
    pub entries_read: u64,
}

impl Stated {
    pub fn files(&self) -> CaseFiles {
        let frames = self.frames();
        let mut image = vec![0; frames.len() * PAGE_BYTES];
        let bytes = levels(self.mode)[0].bytes;
        for (physical, entry) in self.entries {
            let offset = image_offset(&frames, *physical);
            image[offset..offset + bytes].copy_from_slice(&entry.to_le_bytes()[..bytes]);
        }
        let mut fields = sheet_fields(self.directory_page, &frames);
        fields[0] = 2;
        fields.splice(2..2, [self.mode, self.place]);
        CaseFiles {
            sheet: sheet_of(&fields),
            image,
            pagefile: Vec::new(),
        }
    }

    /// The stated number, image offset and entries read.
    pub fn answer(&self) -> [u64; 3] {
        let offset = match self.number {
            1 => image_offset(&self.frames(), self.found) as u64,
            _ => 0,
        };
        [self.number, offset, self.entries_read]
    }

    fn frames(&self) -> Vec<u64> {
        let mut frames = vec![self.directory_page, self.found >> 12];
        frames.extend(self.entries.iter().map(|(physical, _)| physical >> 12));
        frames.sort();
        frames.dedup();
        frames
    }
}

fn image_offset(frames: &[u64], physical: u64) -> usize {
    let page = frames.binary_search(&(physical >> 12));
    page.expect("the frame is in a run") * PAGE_BYTES + (physical % PAGE) as usize
}

/// The entries of document 000, section 3.1, with the one after the last.
const DOCUMENT_000: &[(u64, u64)] = &[
    (0x0760_0838, 0x0DA6_B801),
    (0x0DA6_B0B8, 0x073F_1963),
    (0x073F_1308, 0x11DF_3921),
    (0x073F_1310, 0xE1B1_1510_0000_0400),
];

const IN_000: Stated = Stated {
    what: "",
    mode: PAE,
    place: 65,
    directory_page: 0x7600,
    entries: DOCUMENT_000,
    address: 0,
    number: 0,
    found: 0x11DF_3000,
    entries_read: 3,
};

/// Entries of 4 bytes of our own: a table, a 4 MiB page, one with bit 13, one in transition, and states behind the table.
const PLAIN_ENTRIES: &[(u64, u64)] = &[
    (0x5000, 0x6001),
    (0x5004, 0x0040_1081),
    (0x5008, 0x0040_2081),
    (0x500C, 0x6800),
    (0x5FFC, 0x6001),
    (0x6000, 0x0040_3801),
    (0x6004, 0x0040_3800),
    (0x6008, 0x0040_3C00),
    (0x600C, 0x0040_4001),
    (0x6FFC, 0x0040_3001),
];

const IN_PLAIN: Stated = Stated {
    mode: PLAIN,
    place: 0,
    directory_page: 5,
    entries: PLAIN_ENTRIES,
    found: 0x0040_3000,
    entries_read: 2,
    ..IN_000
};

/// The worked translation of document 000, and the rules of 02, order 7, in mode 1.
#[rustfmt::skip]
pub const STATED: &[Stated] = &[
    Stated { what: "000, 0xC2E61940", address: 0xC2E6_1940, number: 1, found: 0x11DF_3940, ..IN_000 },
    Stated { what: "000, the entry after the last", address: 0xC2E6_2940, number: 34, ..IN_000 },
    Stated { what: "000, another top entry", address: 0x82E6_1940, number: 21, entries_read: 1, ..IN_000 },
    Stated { what: "000, another place", place: 64, address: 0xC2E6_1940, number: 21, entries_read: 1, ..IN_000 },
    Stated { what: "000, 2^32", address: ADDRESS_LIMIT, number: 20, entries_read: 0, ..IN_000 },
    Stated { what: "plain, valid", address: 0x0000_0123, number: 1, found: 0x0040_3123, ..IN_PLAIN },
    Stated { what: "plain, transition", address: 0x0000_1FFF, number: 1, found: 0x0040_3FFF, ..IN_PLAIN },
    Stated { what: "plain, bits 10 and 11", address: 0x0000_2000, number: 34, ..IN_PLAIN },
    Stated { what: "plain, frame in no run", address: 0x0000_3000, number: 23, ..IN_PLAIN },
    Stated { what: "plain, 4 MiB", address: 0x0040_3ABC, number: 1, found: 0x0040_3ABC, entries_read: 1, ..IN_PLAIN },
    Stated { what: "plain, 4 MiB in no run", address: 0x0040_4000, number: 23, entries_read: 1, ..IN_PLAIN },
    Stated { what: "plain, 4 MiB with bit 13", address: 0x0080_3000, number: 24, entries_read: 1, ..IN_PLAIN },
    Stated { what: "plain, bit 13 before no run", address: 0x0080_4000, number: 24, entries_read: 1, ..IN_PLAIN },
    Stated { what: "plain, table in transition", address: 0x00C0_0000, number: 21, entries_read: 1, ..IN_PLAIN },
    Stated { what: "plain, the last byte", address: 0xFFFF_FFFF, number: 1, found: 0x0040_3FFF, ..IN_PLAIN },
    Stated { what: "plain, 2^32", address: ADDRESS_LIMIT, number: 20, entries_read: 0, ..IN_PLAIN },
];
