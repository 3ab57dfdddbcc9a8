//! Cases with their stated answers. An answer is number, offset and entries read, and has its reason beside it.

use crate::tables::{naming, Case, Tables, KERNEL, USER};

pub type Answer = [u64; 3];

/// One address of a case and its answer.
pub struct Stated {
    pub address: u64,
    pub answer: Answer,
    pub why: String,
}

/// A case and what is stated of it.
pub struct Group {
    pub what: &'static str,
    pub case: Case,
    pub stated: Vec<Stated>,
}

pub fn groups() -> Vec<Group> {
    vec![
        worked_translations(),
        states(),
        refusals(),
        refusals_of_prototype_addresses(),
        prototype_chains(),
        compressed_store(),
        pages_of_zeros(),
        directory_in_no_run(),
        runs_with_gaps(),
        plain(),
        pae(),
    ]
}

pub fn stated(address: u64, answer: Answer, why: &str) -> Stated {
    Stated {
        address,
        answer,
        why: why.to_string(),
    }
}

fn all_stated(rows: &[(u64, Answer, &str)]) -> Vec<Stated> {
    rows.iter()
        .map(|(address, answer, why)| stated(*address, *answer, why))
        .collect()
}

/// The entries that document 002 prints, each at its own physical address.
const PRINTED: [(u64, u64); 10] = [
    (0x323E_F000, 0x0940_0000_31AC_0867),
    (0x31AC_0000, 0x00B0_0000_07F8_4867),
    (0x31AC_0008, 0x0080_0000_2A80_1867),
    (0x07F8_4000, 0x1580_0000_3090_8847),
    (0x07F8_4028, 0x00C0_0000_2578_5847),
    (0x2A80_1DD8, 0x10A0_0000_2F99_6847),
    (0x2578_59A0, 0x0002_96A2_0000_0080),
    (0x2578_5880, 0xF8A0_02BD_2ED8_0400),
    (0x2F99_6D80, 0xF8A0_0038_5058_0400),
    (0x3090_8E80, 0xFFFF_FFFF_0000_0420),
];

/// Tables of our own above its two prototype entries, then these; the first is printed by its fields.
const PROTOTYPE_TABLES: [(u64, u64); 8] = [
    (0x323E_FF88, 0x0020_0063),
    (0x0020_0400, 0x0020_1063),
    (0x0020_10A8, 0x0020_2063),
    (0x0020_2E90, 0x0020_3063),
    (0x0020_1008, 0x0020_2063),
    (0x0020_2C28, 0x0020_3063),
    (0x0020_3ED8, 0xFA80_01A1_7A70_0420),
    (0x0020_3058, 0x8000_0000_2318_E121),
];

const RUNS_OF_002: [(u64, u64); 9] = [
    (0x200, 4),
    (0x7F84, 1),
    (0x2318E, 1),
    (0x25785, 1),
    (0x2A801, 1),
    (0x2F996, 1),
    (0x30908, 1),
    (0x31AC0, 1),
    (0x323EF, 1),
];

#[rustfmt::skip]
const WORKED: [(u64, Answer, &str); 8] = [
    (0xB3_4000, [27, 0, 4], "pagefile page 0x296A2 of a pagefile with two pages"),
    (0xB3_5004, [2, 0x1004, 4], "the same entry with pagefile page 1"),
    (0xB1_0000, [25, 0, 9], "prototype entry of a subsection"),
    (0x777B_0000, [1, 0x5000, 9], "prototype entry valid, frame 0x2318E is image page 5"),
    (0x777B_0070, [1, 0x5070, 9], "the same page, 0x70 bytes on"),
    (0x1D_0000, [22, 0, 4], "VAD prototype"),
    (0xFFFF_F8A0_0038_5058, [1, 0x3058, 4], "the prototype entry itself, in frame 0x203"),
    (0xFFFF_F8A0_02BD_2ED8, [1, 0x3ED8, 4], "the other, P6's address"),
];

/// 002's pagefile has 1 GiB, so its page 0x296A2 is past the end here; the entry of 0xB35000 is ours.
fn worked_translations() -> Group {
    let mut case = Case::new(0x323EF, &RUNS_OF_002, 2);
    for (physical, entry) in PRINTED.iter().chain(&PROTOTYPE_TABLES) {
        case.put(*physical, *entry);
    }
    case.put(0x2578_59A8, 0x0000_0001_0000_0080);
    Group {
        what: "the worked translations of 002",
        case,
        stated: all_stated(&WORKED),
    }
}

/// Last-level entry and place in the page.
#[rustfmt::skip]
const LAST_STATES: [(u64, u64, Answer, &str); 6] = [
    (0x8000_0000_0010_5867, 0x123, [1, 0x5123, 4], "3.1.1 valid, frame 0x105"),
    (0x0010_5880, 0x010, [1, 0x5010, 4], "3.1.2 transition, frame 0x105"),
    (0xFFFF_FFFF_0000_0420, 0x000, [22, 0, 4], "3.1.4 VAD prototype"),
    (0, 0x000, [22, 0, 4], "3.1.5 the whole entry 0: P9"),
    (0x2_0000_0080, 0xFFF, [2, 0x2FFF, 4], "3.1.6 software, pagefile page 2"),
    (0x80, 0xFFF, [3, 0, 4], "3.1.6 software, no pagefile page: P8"),
];

/// Prototype entry and place in the page.
#[rustfmt::skip]
const PROTOTYPE_STATES: [(u64, u64, Answer, &str); 6] = [
    (0x8000_0000_0010_5121, 0x058, [1, 0x5058, 9], "3.1.3 prototype, 3.2.1 valid"),
    (0x0010_6880, 0xFFF, [1, 0x6FFF, 9], "3.2.2 transition, frame 0x106"),
    (0xFA80_01A1_7A70_0420, 0x000, [25, 0, 9], "3.2.3 subsection"),
    (0x80, 0x007, [3, 0, 9], "3.2.4 demand zero"),
    (0, 0x008, [3, 0, 9], "3.2.4 demand zero with no protection"),
    (0x1_0000_0080, 0x321, [2, 0x1321, 9], "3.3 pagefile entry, page 1"),
];

/// Every state of 002, 3.1 and 3.2.
fn states() -> Group {
    let mut tables = Tables::new();
    let mut list = Vec::new();
    for (entry, place, answer, why) in LAST_STATES {
        let page = tables.last(entry);
        list.push(stated(USER + page + place, answer, why));
    }
    for (entry, place, answer, why) in PROTOTYPE_STATES {
        let page = tables.behind_prototype(entry);
        list.push(stated(USER + page + place, answer, why));
    }
    list.push(stated(0xC0_0000, [22, 0, 3], "3.1.5 its table's entry 0"));
    Group {
        what: "every state of 002, 3.1 and 3.2",
        case: tables.case,
        stated: list,
    }
}

/// Addresses for which nothing has to be put into the tables.
#[rustfmt::skip]
const ADDRESS_REFUSALS: [(u64, Answer, &str); 9] = [
    (0x0000_8000_0000_0000, [20, 0, 0], "P4: bit 47 alone"),
    (0xFFFF_7FFF_FFFF_FFFF, [20, 0, 0], "the last address below the upper half"),
    (0x8000_0000_0000_0000, [20, 0, 0], "bit 63 alone"),
    (0x0001_0000_0000_0000, [20, 0, 0], "bit 48 alone"),
    (0x0000_7FFF_FFFF_FFFF, [21, 0, 1], "P3: canonical, level one entry 0xFF not valid"),
    (0xFFFF_8000_0000_0000, [21, 0, 1], "canonical, level one entry 0x100 not valid"),
    (0xFFFF_FFFF_FFFF_FFFF, [21, 0, 1], "canonical, level one entry 0x1FF not valid"),
    (0x4000_0000, [21, 0, 2], "level two entry 1 not valid"),
    (0x40_0000, [22, 0, 3], "level three entry 2 not valid"),
];

/// Level, index and entry.
#[rustfmt::skip]
const UPPER_REFUSALS: [(usize, u64, u64, Answer, &str); 12] = [
    (1, 1, 0x5_0001, [23, 0, 1], "level one, table frame 0x50 in no run"),
    (1, 2, 0x0001_0000_0010_1001, [24, 0, 1], "level one, bit 48"),
    (1, 3, 0x0008_0000_0005_0001, [24, 0, 1], "level one, bit 51, and its frame is in no run"),
    (2, 2, 0x5_0001, [23, 0, 2], "level two, table frame 0x50 in no run"),
    (2, 3, 0x0002_0000_0010_2001, [24, 0, 2], "level two, bit 49"),
    (2, 4, 0x0004_0000_0000_0081, [24, 0, 2], "1 GiB page, bit 50"),
    (2, 5, 0x4000_0081, [23, 0, 2], "1 GiB page at frame 0x40000, in no run"),
    (3, 6, 0x5_0001, [23, 0, 3], "level three, table frame 0x50 in no run"),
    (3, 7, 0x0004_0000_0010_3001, [24, 0, 3], "level three, bit 50"),
    (3, 8, 0x0001_0000_0000_0081, [24, 0, 3], "2 MiB page, bit 48"),
    (3, 9, 0x20_0081, [23, 0, 3], "2 MiB page at frame 0x200, in no run"),
    (3, 10, 0x10_5800, [22, 0, 3], "level three entry in transition, which 01 does not follow"),
];

#[rustfmt::skip]
const LAST_REFUSALS: [(u64, Answer, &str); 15] = [
    (0x5_0001, [23, 0, 4], "valid, frame 0x50 in no run"),
    (0x0F_F001, [23, 0, 4], "valid, the frame right below the run"),
    (0x10_C001, [23, 0, 4], "valid, the frame right above the run"),
    (0x5_0800, [23, 0, 4], "transition, frame 0x50 in no run"),
    (0x0001_0000_0010_5001, [24, 0, 4], "valid, bit 48"),
    (0x0008_0000_0005_0001, [24, 0, 4], "valid, bit 51, and its frame is in no run"),
    (0x1_0000_0082, [26, 0, 4], "bit 1: pagefile 1"),
    (0x1_0000_0090, [26, 0, 4], "bit 4: pagefile 8"),
    (0x9_0000_0082, [26, 0, 4], "pagefile 1, and its page is past our pagefile's end"),
    (0x3_0000_0080, [27, 0, 4], "pagefile page 3 of three"),
    (0xFFFF_FFFF_0000_0080, [27, 0, 4], "the last pagefile page number"),
    (0x0001_0000_0000_0080, [27, 0, 4], "pagefile page 0x10000; bits 12-47 are 0"),
    (naming(KERNEL + 0x1001), [29, 0, 4], "prototype address with bit 0"),
    (naming(KERNEL + 0x1004), [29, 0, 4], "prototype address with bit 2"),
    (0xFFFF_FFFF_0000_0C00, [22, 0, 4], "P12 by step 3: bits 10 and 11"),
];

#[rustfmt::skip]
const PROTOTYPE_REFUSALS: [(u64, Answer, &str); 8] = [
    (0x5_0001, [23, 0, 9], "prototype entry valid, frame 0x50 in no run"),
    (0x5_0800, [23, 0, 9], "prototype entry in transition, frame 0x50 in no run"),
    (0x0001_0000_0010_5001, [24, 0, 9], "prototype entry valid, bit 48"),
    (0x400, [25, 0, 9], "prototype entry with bit 10 alone"),
    (0xFFFF_FFFF_0000_0420, [25, 0, 9], "the VAD value says nothing in a prototype entry"),
    (0xC00, [25, 0, 9], "prototype entry with bits 10 and 11"),
    (0x1_0000_0084, [26, 0, 9], "prototype entry, bit 2: pagefile 2"),
    (0x3_0000_0080, [27, 0, 9], "prototype entry, pagefile page 3 of three"),
];

/// Refusals 20 to 29 but 28, each where it can come from.
fn refusals() -> Group {
    let mut tables = Tables::new();
    let mut list = all_stated(&ADDRESS_REFUSALS);
    for (level, index, entry, answer, why) in UPPER_REFUSALS {
        tables.upper(level, index, entry);
        list.push(stated(index << (48 - 9 * level), answer, why));
    }
    for (entry, answer, why) in LAST_REFUSALS {
        let page = tables.last(entry);
        list.push(stated(USER + page, answer, why));
    }
    for (entry, answer, why) in PROTOTYPE_REFUSALS {
        let page = tables.behind_prototype(entry);
        list.push(stated(USER + page, answer, why));
    }
    Group {
        what: "refusals",
        case: tables.case,
        stated: list,
    }
}

/// The last-level entry of a prototype entry's page.
#[rustfmt::skip]
const INNER_REFUSALS: [(u64, Answer, &str); 8] = [
    (0, [22, 0, 8], "its page's last-level entry is 0"),
    (0xFFFF_FFFF_0000_0420, [22, 0, 8], "its page's last-level entry is a VAD prototype"),
    (0x5_0001, [23, 0, 8], "its page is in no run"),
    (0x0001_0000_0010_5001, [24, 0, 8], "its page's frame is too wide"),
    (0x1_0000_0082, [26, 0, 8], "its page is in another pagefile"),
    (0x3_0000_0080, [27, 0, 8], "its page is past the pagefile's end"),
    (0x1_0040_0080, [31, 0, 8], "its page is in the compressed store"),
    (naming(KERNEL + 0x1002), [29, 0, 8], "its page's prototype address is not a multiple of 8"),
];

/// A prototype entry's address.
#[rustfmt::skip]
const INNER_ADDRESSES: [(u64, Answer, &str); 3] = [
    (0x0000_7FFF_FFFF_FFF8, [21, 0, 5], "its level one entry is not valid"),
    (0x4000_0000, [21, 0, 6], "its level two entry is not valid"),
    (0x40_0000, [22, 0, 7], "its level three entry is not valid"),
];

/// A refusal on the way to a prototype entry is passed up, with the entries read so far.
fn refusals_of_prototype_addresses() -> Group {
    let mut tables = Tables::new();
    let mut list = Vec::new();
    for (entry, answer, why) in INNER_REFUSALS {
        let entry_page = tables.last(entry);
        let page = tables.last(naming(KERNEL + entry_page));
        list.push(stated(USER + page, answer, why));
    }
    for (address, answer, why) in INNER_ADDRESSES {
        let page = tables.last(naming(address));
        list.push(stated(USER + page, answer, why));
    }
    let entry_page = tables.behind_prototype(0xFA80_01A1_7A70_0420);
    let page = tables.last(naming(KERNEL + entry_page));
    list.push(stated(USER + page, [25, 0, 13], "its page is a file's"));
    Group {
        what: "refusals of a prototype entry's address",
        case: tables.case,
        stated: list,
    }
}

/// Four entries for each address on the way, one for each prototype entry.
fn prototype_chains() -> Group {
    let mut tables = Tables::new();
    // Each page of prototype entries lies behind one prototype entry more than the page before it.
    let behind_one = KERNEL + tables.behind_prototype(0x10_6001);
    tables.case.put(0x10_6018, 0x10_7001);
    tables.case.put(0x10_6020, 0x10_8001);
    let behind_two = KERNEL + tables.last(naming(behind_one + 0x20));
    tables.case.put(0x10_8028, 0x10_9001);
    tables.case.put(0x10_8030, 0x10_A001);
    let behind_three = KERNEL + tables.last(naming(behind_two + 0x30));
    tables.case.put(0x10_A038, 0x10_B001);
    let one = USER + tables.behind_prototype(0x10_5001);
    let two = USER + tables.last(naming(behind_one + 0x18));
    let three = USER + tables.last(naming(behind_two + 0x28));
    let four = USER + tables.last(naming(behind_three + 0x38));
    let also_transition = USER + tables.last(naming(behind_two + 0x28) | 0x800);
    let list = [
        (one + 0x111, [1, 0x5111, 9], "one, frame 0x105"),
        (two + 0x222, [1, 0x7222, 14], "two, frame 0x107"),
        (three + 0x333, [1, 0x9333, 19], "three, frame 0x109"),
        (four + 0x444, [28, 0, 16], "a fourth would be needed"),
        (behind_three + 0x38, [1, 0xA038, 19], "that of four itself"),
        (
            also_transition,
            [1, 0x9000, 19],
            "P12 by step 4: bit 11 too",
        ),
    ];
    Group {
        what: "prototype chains",
        case: tables.case,
        stated: all_stated(&list),
    }
}

/// Entries with bit 22 set, and their number at last level and at a prototype address (02, order 5).
#[rustfmt::skip]
const WITH_BIT_22: [(u64, u64, &str); 10] = [
    (0x1_0040_0080, 31, "our pagefile has page 1, and it says nothing of this one"),
    (0x4_0040_0080, 31, "P7's entry with bit 22: before 27"),
    (0x1_0040_0082, 31, "pagefile 1: before 26"),
    (0x4_0040_009E, 31, "every bit of the pagefile's number: before 26 and 27"),
    (0xFFFF_FFFF_FFFF_F3FE, 31, "every bit but 0, 10 and 11"),
    (0x40_0080, 3, "P8's entry with bit 22: the zero-page test is first"),
    (0x40_0000, 3, "bit 22 alone"),
    (0x40_001E, 3, "pagefile 15, and no page of it"),
    (0x1_0050_5001, 23, "valid: the bit is of its frame, 0x100505"),
    (0x1_0050_5800, 23, "transition: likewise"),
];

fn compressed_store() -> Group {
    let mut tables = Tables::new();
    let mut list = Vec::new();
    for (entry, number, why) in WITH_BIT_22 {
        let page = USER + tables.last(entry);
        list.push(stated(page + 0x123, [number, 0, 4], why));
        let page = USER + tables.behind_prototype(entry);
        list.push(stated(page + 0x123, [number, 0, 9], why));
    }
    // Behind one, two and three prototype entries, and by prototype entries that lie in such pages.
    let behind_one = KERNEL + tables.behind_prototype(0x10_6001);
    tables.case.put(0x10_6048, 0x1_0040_0080);
    tables.case.put(0x10_6050, 0x10_7001);
    let behind_two = KERNEL + tables.last(naming(behind_one + 0x50));
    tables.case.put(0x10_7058, 0x1_0040_0080);
    let one = KERNEL + tables.behind_prototype(0x1_0040_0080);
    let two = KERNEL + tables.last(naming(behind_one + 0x48));
    let three = USER + tables.last(naming(behind_two + 0x58));
    let in_one = USER + tables.last(naming(one + 0x60));
    let in_two = USER + tables.last(naming(two + 0x60));
    list.extend(all_stated(&[
        (one, [31, 0, 9], "by one prototype entry"),
        (two, [31, 0, 14], "by two"),
        (three, [31, 0, 19], "by three"),
        (in_one, [31, 0, 13], "passed up from a page behind one"),
        (in_two, [31, 0, 18], "passed up from a page behind two"),
    ]));
    Group {
        what: "pages in the compressed store",
        case: tables.case,
        stated: list,
    }
}

fn pages_of_zeros() -> Group {
    let mut tables = Tables::new();
    let zeros = KERNEL + tables.last(0x80);
    let in_zeros = USER + tables.last(naming(zeros + 8));
    let more_zeros = KERNEL + tables.last(naming(zeros + 0x10));
    let in_more_zeros = USER + tables.last(naming(more_zeros));
    let paged_out = KERNEL + tables.last(0x1_0000_0080);
    tables.case.put_in_pagefile(0x1040, 0x10_9001);
    let in_pagefile = USER + tables.last(naming(paged_out + 0x40));
    let list = [
        (zeros + 8, [3, 0, 4], "the page of zeros itself"),
        (in_zeros + 5, [3, 0, 9], "an entry in it reads as 0"),
        (in_more_zeros, [3, 0, 14], "zeros behind a prototype entry"),
        (
            in_pagefile + 9,
            [1, 0x9009, 9],
            "an entry in pagefile page 1",
        ),
    ];
    Group {
        what: "entries in a page of zeros and in the pagefile",
        case: tables.case,
        stated: all_stated(&list),
    }
}

fn directory_in_no_run() -> Group {
    let mut tables = Tables::new();
    tables.case.directory = 0x50;
    let list = [
        (0, [23, 0, 0], "frame 0x50 is in no run"),
        (0xFFFF_FFFF_FFFF_FFFF, [23, 0, 0], "every canonical address"),
        (0x0000_8000_0000_0000, [20, 0, 0], "P4 is judged before"),
    ];
    Group {
        what: "the top table in no run",
        case: tables.case,
        stated: all_stated(&list),
    }
}

/// The last frame below 2^36.
const TOP_FRAME: u64 = 0xF_FFFF_FFFF;

/// Image pages 0, 1 and 2, 3 to 5, and 6.
const RUNS_WITH_GAPS: [(u64, u64); 4] = [(0, 1), (3, 2), (0x1000, 3), (TOP_FRAME, 1)];

#[rustfmt::skip]
const FRAMES: [(u64, Answer, &str); 12] = [
    (0, [1, 0x0ABC, 4], "the first run starts at frame 0"),
    (1, [23, 0, 4], "the first gap"),
    (2, [23, 0, 4], "the first gap's last frame"),
    (3, [1, 0x1ABC, 4], "the second run's first frame"),
    (4, [1, 0x2ABC, 4], "the second run's last frame"),
    (5, [23, 0, 4], "right behind the second run"),
    (0xFFF, [23, 0, 4], "right before the third run"),
    (0x1000, [1, 0x3ABC, 4], "the third run's first frame"),
    (0x1002, [1, 0x5ABC, 4], "the third run's last frame"),
    (0x1003, [23, 0, 4], "right behind the third run"),
    (TOP_FRAME - 1, [23, 0, 4], "right before the last frame"),
    (TOP_FRAME, [1, 0x6ABC, 4], "the last frame of all"),
];

fn runs_with_gaps() -> Group {
    let mut case = Case::new(3, &RUNS_WITH_GAPS, 0);
    case.put(0x3000, 0x4001);
    case.put(0x4000, 0x100_0001);
    case.put(0x100_0000, 0x100_1001);
    let mut list = Vec::new();
    for (index, (frame, answer, why)) in FRAMES.into_iter().enumerate() {
        case.put(0x100_1000 + 8 * index as u64, frame << 12 | 1);
        list.push(stated((index as u64) << 12 | 0xABC, answer, why));
    }
    Group {
        what: "runs with gaps",
        case,
        stated: list,
    }
}

/// Entries of 4 bytes: the top table at frame 5, tables at frames 6 and 7, pages at frames 0x403 and 0x404.
const PLAIN_ENTRIES: [(u64, u64); 14] = [
    (0x5000, 0x6001),
    (0x5004, 0x0040_1081),
    (0x5008, 0x0040_2081),
    (0x500C, 0x0060_0081),
    (0x5010, 0x6800),
    (0x5014, 0x9001),
    (0x5FFC, 0x7001),
    (0x6000, 0xFFFF_FFFF),
    (0x6004, 0x0040_3801),
    (0x6008, 0x0040_3880),
    (0x600C, 0x0040_3C00),
    (0x6010, 0x0040_3400),
    (0x6014, 0x80),
    (0x7FFC, 0x0040_4081),
];

#[rustfmt::skip]
const PLAIN_ANSWERS: [(u64, Answer, &str); 17] = [
    (0x0000_0000, [23, 0, 2], "frame 0xFFFFF in no run; 4-byte entries have no bits 48-51"),
    (0x0000_1123, [1, 0x3123, 2], "valid, frame 0x403 is image page 3"),
    (0x0000_2FFF, [1, 0x3FFF, 2], "transition, with bit 7"),
    (0x0000_3000, [34, 0, 2], "bits 10 and 11: prototype"),
    (0x0000_4000, [34, 0, 2], "bit 10: prototype"),
    (0x0000_5000, [34, 0, 2], "a software entry"),
    (0x0000_6000, [34, 0, 2], "the whole entry 0"),
    (0x0040_3ABC, [1, 0x3ABC, 1], "4 MiB, address bits 12-21; bit 12 says nothing"),
    (0x0040_4ABC, [1, 0x4ABC, 1], "the next frame of the same 4 MiB page"),
    (0x0040_5000, [23, 0, 1], "the frame after it, in no run"),
    (0x0080_3000, [24, 0, 1], "4 MiB with bit 13"),
    (0x0080_5000, [24, 0, 1], "4 MiB with bit 13, before the frame in no run"),
    (0x00C0_3000, [24, 0, 1], "4 MiB with bit 21"),
    (0x0100_0000, [21, 0, 1], "the top entry in transition"),
    (0x0140_0000, [23, 0, 1], "a table in no run"),
    (0xFFFF_FFFF, [1, 0x4FFF, 2], "the last address, by entries 0x3FF and 0x3FF"),
    (0x1_0000_0000, [20, 0, 0], "2^32"),
];

/// Two levels of tables with entries of 4 bytes.
fn plain() -> Group {
    let mut case = Case::new(5, &[(5, 3), (0x403, 2)], 1);
    case.mode = 1;
    for (physical, entry) in PLAIN_ENTRIES {
        case.put(physical, entry);
    }
    Group {
        what: "mode 1, plain 32-bit paging",
        case,
        stated: all_stated(&PLAIN_ANSWERS),
    }
}

/// The entries that document 000 prints in 3.1, then some of our own.
const PAE_ENTRIES: [(u64, u64); 15] = [
    (0x0760_0838, 0x0DA6_B801),
    (0x0DA6_B0B8, 0x073F_1963),
    (0x073F_1308, 0x11DF_3921),
    (0x073F_1310, 0xE1B1_1510_0000_0400),
    (0x0760_0820, 0x0DA6_B167),
    (0x0760_0828, 0x0001_0000_0DA6_B001),
    (0x0760_0830, 0x0DA6_B800),
    (0x0DA6_B0C0, 0x11C0_11E7),
    (0x0DA6_B0C8, 0x0002_0000_11C0_0081),
    (0x0DA6_B0D0, 0x073F_1800),
    (0x0DA6_B0D8, 0x0009_9001),
    (0x073F_1318, 0xFFFF_0000_11DF_3800),
    (0x073F_1320, 0x0008_0000_11DF_3001),
    (0x073F_1328, 0xFFF0_0000_11DF_3081),
    (0x073F_1330, 0x0000_0001_11DF_3001),
];

#[rustfmt::skip]
const PAE_ANSWERS: [(u64, Answer, &str); 16] = [
    (0xC2E6_1940, [1, 0x3940, 3], "000's translation: frame 0x11DF3 is image page 3"),
    (0xC2E6_2940, [34, 0, 3], "000's entry after the last: a prototype"),
    (0x02E6_1940, [1, 0x3940, 3], "bits 1-2, 5-6 and 8 of a top entry say nothing"),
    (0x42E6_1940, [24, 0, 1], "a top entry with bit 48"),
    (0x82E6_1940, [21, 0, 1], "a top entry in transition"),
    (0xC2E6_3940, [1, 0x3940, 3], "transition, bits 48-63 say nothing"),
    (0xC2E6_4000, [24, 0, 3], "valid, with bit 51"),
    (0xC2E6_5001, [1, 0x3001, 3], "bits 7 and 52-63 say nothing"),
    (0xC2E6_6000, [23, 0, 3], "frame 0x111DF3 in no run"),
    (0xC2E6_7000, [34, 0, 3], "the whole entry 0"),
    (0xC31F_3123, [1, 0x3123, 2], "2 MiB, address bits 12-20; entry bit 12 says nothing"),
    (0xC31F_4123, [23, 0, 2], "the next frame of the same 2 MiB page, in no run"),
    (0xC33F_3000, [24, 0, 2], "2 MiB with bit 49"),
    (0xC34F_3000, [21, 0, 2], "a middle entry in transition"),
    (0xC370_0000, [23, 0, 2], "a table in no run"),
    (0x1_0000_0000, [20, 0, 0], "2^32"),
];

/// Four top entries at 65 times 32 bytes in their page, then two levels of tables.
fn pae() -> Group {
    let runs = [(0x73F1, 1), (0x7600, 1), (0xDA6B, 1), (0x11DF3, 1)];
    let mut case = Case::new(0x7600, &runs, 2);
    (case.mode, case.place) = (2, 65);
    for (physical, entry) in PAE_ENTRIES {
        case.put(physical, entry);
    }
    Group {
        what: "mode 2, PAE: the worked translation of 000",
        case,
        stated: all_stated(&PAE_ANSWERS),
    }
}
