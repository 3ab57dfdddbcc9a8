//! The cases on which two walks are compared, and those that the papers state.

use crate::common::bad_forms::{BAD_FORM_CASES, SHEET};
use crate::common::case_files::{damage_files, damage_tables, other_sheet, CaseFiles};
use crate::common::groups::sheet_of;
use crate::common::many_runs::each_with_many_runs;
use crate::common::memory::{canonical, sheet_fields, Memory, EDGE_PAGES, PAGE_BYTES};
use crate::common::random::Xorshift;

/// The longest buffer that a question lends.
pub const MOST_ROOM: usize = 4 * PAGE_BYTES;

/// An address to resolve, and a read into a buffer of some room.
pub struct Question {
    pub address: u64,
    pub start: u64,
    pub n: u64,
    pub room: usize,
}

/// Hands so many questions to `take`, the same ones in the same order for the same seed.
pub fn each_question(seed: u64, how_many: u64, take: &mut dyn FnMut(&CaseFiles, &Question)) {
    let mut random = Xorshift::seeded(seed);
    let mut questions = Questions {
        take,
        left: how_many,
    };
    while questions.left > 0 {
        let mut memory = Memory::new(random);
        let pages = lay_pages(&mut memory);
        ask_about(&mut memory, &pages, &mut questions);
        random = memory.random;
    }
}

/// Hands questions about the edges of every run to `take`, in memory of more than 32 runs, then with damaged sheets.
pub fn each_question_about_runs(seed: u64, take: &mut dyn FnMut(&CaseFiles, &Question)) {
    each_with_many_runs(seed, &mut |many| {
        let mut files = many.take_files();
        let pages: Vec<u64> = many.runs.iter().flat_map(|run| run.pages).collect();
        let memory = &mut many.memory;
        for page in &pages {
            take(&files, &question_in(*page, &mut memory.random));
        }
        let good_sheet = files.sheet.clone();
        for page in pages.iter().step_by(pages.len() / 8) {
            let fields = memory.sheet_fields();
            other_sheet(&mut files, memory, fields);
            take(&files, &question_in(*page, &mut memory.random));
        }
        files.sheet = good_sheet;
        damage_files(&mut files, &mut memory.random);
        take(&files, &question_in(pages[0], &mut memory.random));
        ask_bad_forms(memory, &mut files, &pages, take);
    });
}

/// Hands questions to `take` with a bad form in each kind of field of a sheet.
pub fn each_question_about_forms(seed: u64, take: &mut dyn FnMut(&CaseFiles, &Question)) {
    let mut random = Xorshift::seeded(seed.rotate_left(32));
    for _ in 0..BAD_FORM_CASES {
        let mut memory = Memory::new(random);
        let pages = lay_pages(&mut memory);
        let mut files = CaseFiles::taken_from(&mut memory);
        ask_bad_forms(&mut memory, &mut files, &pages, take);
        random = memory.random;
    }
}

fn ask_bad_forms(
    memory: &mut Memory,
    files: &mut CaseFiles,
    pages: &[u64],
    take: &mut dyn FnMut(&CaseFiles, &Question),
) {
    let fields = memory.sheet_fields();
    SHEET.each_bad_form(&fields, &mut memory.random, &mut |sheet, random| {
        files.sheet = sheet;
        let page = pages[random.below(pages.len() as u64) as usize];
        take(files, &question_about(page, random));
    });
}

/// A byte of a page, and a read from there on, often into the next page.
fn question_in(page: u64, random: &mut Xorshift) -> Question {
    let address = page + place_in_page(random);
    let rest = 0x1000 - (address & 0xFFF);
    let n = match random.below(4) {
        0 => rest,
        1 => rest + 1 + random.below(64),
        _ => 1 + random.below(64),
    };
    Question {
        address,
        start: address,
        n,
        room: n as usize,
    }
}

struct Questions<'t> {
    take: &'t mut dyn FnMut(&CaseFiles, &Question),
    left: u64,
}

impl Questions<'_> {
    fn ask(&mut self, files: &CaseFiles, question: &Question) {
        if self.left > 0 {
            self.left -= 1;
            (self.take)(files, question);
        }
    }

    fn ask_some(&mut self, files: &CaseFiles, pages: &[u64], some: u64, random: &mut Xorshift) {
        for _ in 0..some {
            let page = pages[random.below(pages.len() as u64) as usize];
            let question = question_about(page, random);
            self.ask(files, &question);
        }
    }
}

/// Lays addresses of every state, with chains of 0 to 4 prototype entries.
fn lay_pages(memory: &mut Memory) -> Vec<u64> {
    let how_many = 3 + memory.random.below(8);
    let mut pages = Vec::new();
    if memory.random.below(2) == 0 {
        pages.extend(memory.lay_row());
    }
    for _ in 0..how_many {
        let prototypes = match memory.random.below(16) {
            0..=5 => 0,
            6..=8 => 1,
            9..=11 => 2,
            12..=14 => 3,
            _ => 4,
        };
        let odd = match memory.random.below(5) {
            0 | 1 => None,
            2 => Some(0),
            _ => Some(memory.random.below(u64::from(prototypes) + 1) as u32),
        };
        pages.push(memory.lay(prototypes, odd).0);
    }
    pages
}

/// Questions about the case as laid, then with damaged tables, then with a damaged sheet.
fn ask_about(memory: &mut Memory, pages: &[u64], questions: &mut Questions) {
    let fields = memory.sheet_fields();
    let mut files = CaseFiles::taken_from(memory);
    for page in pages {
        let question = question_about(*page, &mut memory.random);
        questions.ask(&files, &question);
    }
    questions.ask_some(&files, pages, 3, &mut memory.random);
    for _ in 0..2 {
        damage_tables(&mut files.image, &memory.put, &mut memory.random);
        questions.ask_some(&files, pages, 2, &mut memory.random);
    }
    let good_sheet = files.sheet.clone();
    other_sheet(&mut files, memory, fields);
    questions.ask_some(&files, pages, 1, &mut memory.random);
    if memory.random.below(4) > 0 {
        files.sheet = good_sheet;
    }
    damage_files(&mut files, &mut memory.random);
    questions.ask_some(&files, pages, 1, &mut memory.random);
}

fn question_about(page: u64, random: &mut Xorshift) -> Question {
    let address = page + place_in_page(random);
    let address = match random.below(24) {
        0 => address ^ 1 << (47 + random.below(17)),
        1 => (address & ((1 << 47) - 1)) | (random.next() << 47),
        2 => canonical(address ^ 1 << (12 + random.below(36))),
        3 => address ^ 1 << (12 + random.below(9)),
        4 => EDGE_PAGES[random.below(4) as usize].wrapping_sub(random.below(2)),
        5 => random.next(),
        _ => address,
    };
    let start = match random.below(8) {
        0 | 1 => (page | 0xFFF) - random.below(32),
        2 => page.wrapping_sub(random.below(32)),
        3 => page,
        _ => address,
    };
    let n = match random.below(16) {
        0 => 0,
        1 => 0x1000 - (start & 0xFFF),
        2 => 0x1000 - (start & 0xFFF) + 1,
        3 | 4 => random.below(2 * PAGE_BYTES as u64),
        5 => random.below(MOST_ROOM as u64),
        6 => random.up_to_bits(63) + random.up_to_bits(63),
        _ => random.below(64),
    };
    Question {
        address,
        start,
        n,
        room: room_for(n, random),
    }
}

fn place_in_page(random: &mut Xorshift) -> u64 {
    match random.below(4) {
        0 => 0,
        1 => 0xFFF,
        _ => random.below(0x1000),
    }
}

/// Mostly enough room, often no more than that.
fn room_for(n: u64, random: &mut Xorshift) -> usize {
    let room = match random.below(16) {
        0 => n.saturating_sub(1),
        1 => random.below(64),
        2..=5 => n.saturating_add(random.below(64)),
        _ => n,
    };
    room.min(MOST_ROOM as u64) as usize
}

/// A case whose answer a paper states.
pub struct Stated {
    pub what: &'static str,
    pub directory_page: u64,
    /// Entries with their physical addresses; no other frames are in a run.
    pub entries: &'static [(u64, u64)],
    pub pagefile_length: usize,
    pub address: u64,
    pub number: u64,
    /// The physical address for 1, the pagefile offset for 2, else 0.
    pub place: u64,
    pub entries_read: u64,
}

impl Stated {
    pub fn files(&self) -> CaseFiles {
        let frames = self.frames();
        let mut image = vec![0; frames.len() * PAGE_BYTES];
        for (physical, entry) in self.entries {
            let offset = image_offset(&frames, *physical);
            image[offset..offset + 8].copy_from_slice(&entry.to_le_bytes());
        }
        CaseFiles {
            sheet: sheet_of(&sheet_fields(self.directory_page, &frames)),
            image,
            pagefile: vec![0; self.pagefile_length],
        }
    }

    /// The stated number, file offset and entries read.
    pub fn answer(&self) -> [u64; 3] {
        let offset = match self.number {
            1 => image_offset(&self.frames(), self.place) as u64,
            _ => self.place,
        };
        [self.number, offset, self.entries_read]
    }

    /// The frames that are spoken of, ascending.
    fn frames(&self) -> Vec<u64> {
        let mut frames = vec![self.directory_page];
        frames.extend(self.entries.iter().map(|(physical, _)| physical >> 12));
        if self.number == 1 {
            frames.push(self.place >> 12);
        }
        frames.sort();
        frames.dedup();
        frames
    }
}

fn image_offset(frames: &[u64], physical: u64) -> usize {
    let page = frames.binary_search(&(physical >> 12));
    page.expect("the frame is in a run") * PAGE_BYTES + (physical & 0xFFF) as usize
}

/// The printed entries of document 002; the tables above its two prototype entries are ours.
const DOCUMENT_002: &[(u64, u64)] = &[
    (0x323E_F000, 0x0940_0000_31AC_0867),
    (0x31AC_0000, 0x00B0_0000_07F8_4867),
    (0x31AC_0008, 0x0080_0000_2A80_1867),
    (0x07F8_4000, 0x1580_0000_3090_8847),
    (0x07F8_4028, 0x00C0_0000_2578_5847),
    (0x2A80_1DD8, 0x10A0_0000_2F99_6847),
    (0x2578_59A0, 0x0002_96A2_0000_0080),
    (0x2578_5880, 0xF8A0_02BD_2ED8_0400),
    (0x2F99_6D80, 0xF8A0_0038_5058_0400),
    (0x3090_8E80, 0xFFFF_FFFF_0000_0420),
    // Both prototype addresses use indices 0x1F1 and 0x80.
    (0x323E_FF88, 0x0020_0063),
    (0x0020_0400, 0x0020_1063),
    // 0xFFFFF8A002BD2ED8 goes on with 0x15 and 0x1D2.
    (0x0020_10A8, 0x0020_2063),
    (0x0020_2E90, 0x0020_4063),
    // 0xFFFFF8A000385058 goes on with 1 and 0x185.
    (0x0020_1008, 0x0020_3063),
    (0x0020_3C28, 0x0020_5063),
    // The subsection entry is printed by its fields.
    (0x0020_4ED8, 0xFA80_01A1_7A70_0420),
    (0x0020_5058, 0x8000_0000_2318_E121),
];

/// Tables of our own for address 0xB10000 (P5), and the entries of P7 to P9 and P12 behind it; then those of P7 and
/// P8 with bit 22 set, at last level and at prototype addresses.
const EDGES: &[(u64, u64)] = &[
    (0x1000, 0x2001),
    (0x2000, 0x3001),
    (0x3028, 0x4001),
    (0x4880, 0x4_0000_0080),
    (0x4888, 0x80),
    (0x4890, 0),
    (0x4898, 0xFFFF_FFFF_0000_0C00),
    (0x48A0, 0xF8A0_02BD_2ED8_0C00),
    (0x48A8, 0x4_0040_0080),
    (0x48B0, 0x40_0080),
    (0x48B8, 0x4_0040_009E),
    (0x48C0, 0x00B1_A008_0400),
    (0x48C8, 0x00B1_A010_0400),
    (0x48D0, 0x5001),
    (0x5008, 0x4_0040_0080),
    (0x5010, 0x40_0080),
];

const IN_002: Stated = Stated {
    what: "",
    directory_page: 0x323EF,
    entries: DOCUMENT_002,
    pagefile_length: 0,
    address: 0,
    number: 0,
    place: 0,
    entries_read: 0,
};

const AT_EDGE: Stated = Stated {
    directory_page: 1,
    entries: EDGES,
    ..IN_002
};

/// The worked translations of document 002, the edges P3 to P9 and P12, and pages in the compressed store.
pub const STATED: &[Stated] = &[
    Stated {
        what: "002, 0xB34000 in the pagefile",
        pagefile_length: 0x296A_3000,
        address: 0xB3_4000,
        number: 2,
        place: 0x296A_2000,
        entries_read: 4,
        ..IN_002
    },
    Stated {
        what: "002, 0xB34000 past the pagefile",
        pagefile_length: 0x296A_2000,
        address: 0xB3_4000,
        number: 27,
        entries_read: 4,
        ..IN_002
    },
    Stated {
        what: "002, 0xB10000 backed by a file",
        address: 0xB1_0000,
        number: 25,
        entries_read: 9,
        ..IN_002
    },
    Stated {
        what: "002, 0x777B0000 by a prototype entry",
        address: 0x777B_0000,
        number: 1,
        place: 0x2318_E000,
        entries_read: 9,
        ..IN_002
    },
    Stated {
        what: "002, 0x1D0000 by its region",
        address: 0x1D_0000,
        number: 22,
        entries_read: 4,
        ..IN_002
    },
    Stated {
        what: "P3",
        address: 0x0000_7FFF_FFFF_FFFF,
        number: 21,
        entries_read: 1,
        ..AT_EDGE
    },
    Stated {
        what: "P4",
        address: 0x0000_8000_0000_0000,
        number: 20,
        ..AT_EDGE
    },
    Stated {
        what: "P5 and P7, found",
        pagefile_length: 0x5000,
        address: 0xB1_0000,
        number: 2,
        place: 0x4000,
        entries_read: 4,
        ..AT_EDGE
    },
    Stated {
        what: "P5 and P7, past the end",
        pagefile_length: 0x4000,
        address: 0xB1_0000,
        number: 27,
        entries_read: 4,
        ..AT_EDGE
    },
    Stated {
        what: "P8",
        address: 0xB1_1FFF,
        number: 3,
        entries_read: 4,
        ..AT_EDGE
    },
    Stated {
        what: "P9",
        address: 0xB1_2000,
        number: 22,
        entries_read: 4,
        ..AT_EDGE
    },
    Stated {
        what: "P12 by step 3",
        address: 0xB1_3000,
        number: 22,
        entries_read: 4,
        ..AT_EDGE
    },
    Stated {
        what: "P6 and P12 by step 4, its level one entry not valid",
        address: 0xB1_4000,
        number: 21,
        entries_read: 5,
        ..AT_EDGE
    },
    Stated {
        what: "02, order 5, P7's page in the store, in the pagefile's length",
        pagefile_length: 0x5000,
        address: 0xB1_5000,
        number: 31,
        entries_read: 4,
        ..AT_EDGE
    },
    Stated {
        what: "02, order 5, P7's page in the store, past the pagefile's end",
        pagefile_length: 0x4000,
        address: 0xB1_5000,
        number: 31,
        entries_read: 4,
        ..AT_EDGE
    },
    Stated {
        what: "02, order 5, P8's entry with bit 22",
        address: 0xB1_6000,
        number: 3,
        entries_read: 4,
        ..AT_EDGE
    },
    Stated {
        what: "02, order 5, in the store with bits 1-4 set too",
        address: 0xB1_7000,
        number: 31,
        entries_read: 4,
        ..AT_EDGE
    },
    Stated {
        what: "02, order 5, a prototype entry in the store",
        pagefile_length: 0x5000,
        address: 0xB1_8000,
        number: 31,
        entries_read: 9,
        ..AT_EDGE
    },
    Stated {
        what: "02, order 5, a prototype entry of zeros with bit 22",
        address: 0xB1_9000,
        number: 3,
        entries_read: 9,
        ..AT_EDGE
    },
];
