//! Cases in which bits are set that Intel reserves (02, order 8): each bit alone where it is refused, and the same bit
//! where it says something else or nothing.

use crate::program_cases::{stated, Group, Stated};
use crate::tables::{naming, Case, Tables, USER};
use std::ops::RangeInclusive;

/// Of an entry for a page of 1 GiB, of 2 MiB and, in mode 1, of 4 MiB; both ends are reserved too.
const OF_1G: RangeInclusive<u32> = 13..=29;
const OF_2M: RangeInclusive<u32> = 13..=20;
const OF_4M: RangeInclusive<u32> = 13..=21;

const LARGE: u64 = 0x80;
/// Bits 12 and 63, which tables of real machines have set.
const NOT_RESERVED: u64 = 0x8000_0000_0000_1000;

/// Within a large page at frame 0: in frame 0x105, which is in the run, and in frame 0x50, which is in none.
const IN_RUN: u64 = 0x10_5123;
const IN_NO_RUN: u64 = 0x5_0123;

pub fn groups() -> Vec<Group> {
    let mut groups = vec![four_levels(), prototype_addresses(), pae()];
    // The small program takes no more pages at once.
    for bits in [13..=20, 21..=29] {
        groups.push(elsewhere_in_four_levels(bits.clone()));
        groups.push(elsewhere_in_pae(bits));
    }
    groups.push(elsewhere_in_plain());
    groups
}

/// Each of the bits alone, then all of them.
fn masks(bits: RangeInclusive<u32>) -> Vec<u64> {
    let mut masks: Vec<u64> = bits.map(|bit| 1 << bit).collect();
    masks.push(masks.iter().sum());
    masks
}

/// What a mask does to an entry of some level, in a run and in none: alone, with other bits, wide, and not valid.
fn refused(entry: u64, mask: u64, entries: u64, not_valid: u64) -> [(u64, [u64; 3], String); 4] {
    let wide = 1 << 48;
    let with = |entry: u64, number: u64, what: &str| {
        let why = format!("0x{:X} {}", mask, what);
        (entry, [number, 0, entries], why)
    };
    [
        with(entry | mask | 1, 33, "alone"),
        with(entry | mask | NOT_RESERVED | 1, 33, "with bits 12 and 63"),
        with(entry | mask | wide | 1, 24, "with bit 48"),
        with(entry | mask, not_valid, "in an entry that is not valid"),
    ]
}

/// The directory's entries, those of 1 GiB and those of 2 MiB pages.
fn four_levels() -> Group {
    let mut tables = Tables::new();
    let mut list = Vec::new();
    for (level, bits, not_valid) in [(1, 7..=7, 21), (2, OF_1G, 21), (3, OF_2M, 22)] {
        let rows = masks(bits)
            .into_iter()
            .flat_map(|mask| match level {
                // The first names a table in the run, the second one in none.
                1 => [Tables::table_below(1) & !1, 0x5_0000]
                    .map(|frame| refused(frame, mask, 1, not_valid))
                    .concat(),
                _ => refused(LARGE, mask, level as u64, not_valid).to_vec(),
            })
            .enumerate();
        for (place, (entry, answer, why)) in rows {
            let index = 0x20 + place as u64;
            tables.upper(level, index, entry);
            let page = index << (48 - 9 * level);
            list.push(stated(page | IN_RUN, answer, &why));
            list.push(stated(page | IN_NO_RUN, answer, &why));
        }
    }
    Group {
        what: "reserved bits in mode 0",
        case: tables.case,
        stated: list,
    }
}

/// A prototype entry's address behind such an entry: 33 is passed up, with the entries read so far.
fn prototype_addresses() -> Group {
    let mut tables = Tables::new();
    let mut list = Vec::new();
    for (level, entry) in [(1, 0x10_1081), (2, 0x2000_0081), (3, 0x2081)] {
        tables.upper(level, 0x20, entry);
        let page = tables.last(naming(0x20 << (48 - 9 * level) | 0x10_5128));
        let answer = [33, 0, 4 + level as u64];
        list.push(stated(USER + page, answer, "passed up"));
    }
    Group {
        what: "prototype addresses behind reserved bits",
        case: tables.case,
        stated: list,
    }
}

/// The four top entries, and those of 2 MiB pages; the page at frame 0x100 has both, and so is a table of its own.
fn pae() -> Group {
    let mut case = Case::new(0x100, &[(0x100, 8)], 1);
    case.mode = 2;
    case.put(0x10_0000, 0x10_0001);
    let mut list = Vec::new();
    let mut state = |address: u64, answer, why: &str| {
        list.push(stated(address | IN_RUN, answer, why));
        list.push(stated(address | IN_NO_RUN, answer, why));
    };
    for (top, entry, number, why) in [
        (
            1,
            0x10_0081,
            33,
            "bit 7 of a top entry, its frame in the run",
        ),
        (2, 0x5_1081, 33, "bit 7 of a top entry, its frame in no run"),
        (3, 0x0001_0000_0010_0081, 24, "with bit 48"),
    ] {
        case.put(0x10_0000 + 8 * top, entry);
        state(top << 30, [number, 0, 1], why);
    }
    let rows = masks(OF_2M).into_iter();
    let rows = rows
        .flat_map(|mask| refused(LARGE, mask, 2, 21))
        .enumerate();
    for (place, (entry, answer, why)) in rows {
        let index = 4 + place as u64;
        case.put(0x10_0000 + 8 * index, entry);
        state(index << 21, answer, &why);
    }
    Group {
        what: "reserved bits in mode 2",
        case,
        stated: list,
    }
}

/// A case whose pages are tables of their own at every level: one at frame 1, and one at each frame that a bit names.
struct OwnTables {
    case: Case,
    entry_bytes: u64,
    next: u64,
    stated: Vec<Stated>,
}

impl OwnTables {
    fn new(mode: u64, bits: &RangeInclusive<u32>) -> Self {
        let frames = bits.clone().map(|bit| 1 << (bit - 12));
        let frames: Vec<u64> = [1].into_iter().chain(frames).collect();
        let runs: Vec<(u64, u64)> = frames.iter().map(|frame| (*frame, 1)).collect();
        // Frames 1 and 2 touch.
        let runs = match &runs[..] {
            [(1, 1), (2, 1), rest @ ..] => [&[(1, 2)], rest].concat(),
            _ => runs,
        };
        let mut case = Case::new(1, &runs, 1);
        case.mode = mode;
        for frame in frames {
            case.put(frame << 12, frame << 12 | 1);
        }
        OwnTables {
            case,
            entry_bytes: if mode == 1 { 4 } else { 8 },
            // Mode 2 has its four top entries before.
            next: 4,
            stated: Vec::new(),
        }
    }

    /// Puts the next entry into the page at frame 1; its index there.
    fn put(&mut self, entry: u64) -> u64 {
        self.next += 1;
        let index = self.next - 1;
        self.case.put(0x1000 + self.entry_bytes * index, entry);
        index
    }

    /// States an address whose entry at a level leads to a bit's frame; the levels above go by entry 0.
    fn state(&mut self, low: u32, entry: u64, answer: [u64; 3], why: &str) {
        let index = self.put(entry);
        let why = format!("0x{:X}, {}", entry, why);
        self.stated.push(stated(index << low | 0x123, answer, &why));
    }

    fn group(self, what: &'static str) -> Group {
        Group {
            what,
            case: self.case,
            stated: self.stated,
        }
    }
}

/// The answer for byte 0x123 of a bit's page, the so many-th behind the first.
fn found(place: usize, entries: u64) -> [u64; 3] {
    [1, (place as u64 + 1) << 12 | 0x123, entries]
}

/// In entries that name tables, at the last level and in prototype entries the bits are of the frame.
fn elsewhere_in_four_levels(bits: RangeInclusive<u32>) -> Group {
    let mut own = OwnTables::new(0, &bits);
    for (place, bit) in bits.enumerate() {
        let entry = 1 << bit | 1;
        own.state(30, entry, found(place, 4), "a level two table");
        own.state(21, entry, found(place, 4), "a level three table");
        own.state(12, entry | LARGE, found(place, 4), "last level, bit 7");
        // The page at 0 is that of frame 1.
        let index = own.put(entry | LARGE);
        let why = "prototype entry with bit 7";
        own.state(12, naming(8 * index), found(place, 9), why);
        if bit >= 21 {
            own.state(21, entry | LARGE, found(place, 3), "a 2 MiB page's base");
        }
    }
    own.group("bits 13-29 in mode 0 where they are not reserved")
}

fn elsewhere_in_pae(bits: RangeInclusive<u32>) -> Group {
    let mut own = OwnTables::new(2, &bits);
    for (place, bit) in bits.enumerate() {
        let entry = 1 << bit | 1;
        own.state(21, entry, found(place, 3), "a middle table");
        own.state(12, entry | LARGE, found(place, 3), "last level, bit 7");
        if bit >= 21 {
            own.state(21, entry | LARGE, found(place, 2), "a 2 MiB page's base");
        }
    }
    own.group("bits 13-29 in mode 2 where they are not reserved")
}

/// Mode 1 keeps its 24, for bits 13-21, and bit 7 of its first level makes a 4 MiB page.
fn elsewhere_in_plain() -> Group {
    let mut own = OwnTables::new(1, &OF_4M);
    for (place, bit) in OF_4M.enumerate() {
        let entry = 1 << bit | 1;
        own.state(22, entry | LARGE, [24, 0, 1], "a 4 MiB page");
        own.state(22, entry, found(place, 2), "a table");
        own.state(12, entry | LARGE, found(place, 2), "last level, bit 7");
    }
    let index = own.put(0x1081);
    let first = index << 22 | 0x1123;
    own.stated
        .push(stated(first, [1, 0x123, 1], "a 4 MiB page with bit 12"));
    own.group("reserved bits in mode 1")
}
