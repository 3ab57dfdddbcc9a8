//! Cases in which bits that the paper ignores are set: each bit alone, then all of them, with the answer unchanged.

use crate::program_cases::{stated, Answer, Group, Stated};
use crate::tables::{naming, Tables, USER};
use std::ops::RangeInclusive;

/// Both ends are ignored too.
type Bits = &'static [RangeInclusive<u32>];

/// Of a valid entry, where bit 7 says nothing.
const VALID: Bits = &[1..=11, 52..=63];

/// Of a valid entry that names a table, where bit 7 is reserved or would make a large page.
const TABLE: Bits = &[1..=6, 8..=11, 52..=63];

/// Of a valid entry for a large page; from bit 13 up to its base they are reserved.
const LARGE: Bits = &[1..=6, 8..=12, 52..=63];
const NOT_VALID: Bits = &[1..=63];
const TRANSITION: Bits = &[1..=9, 48..=63];
const PROTOTYPE: Bits = &[1..=9, 11..=15];
const SUBSECTION: Bits = &[1..=9, 11..=63];
const SOFTWARE: Bits = &[5..=9, 12..=21, 23..=31];

/// Without a pagefile page, the pagefile's number and bit 22 say nothing.
const ZEROS: Bits = &[1..=9, 12..=31];

/// In the compressed store, the pagefile's number and all but one bit of its page say nothing.
const STORED: Bits = &[1..=9, 12..=21, 23..=31, 33..=63];

pub fn groups() -> Vec<Group> {
    vec![
        table_entries(),
        large_pages(),
        entries_not_valid(),
        last_entries(),
        prototype_entries(),
    ]
}

fn masks(bits: Bits) -> Vec<u64> {
    let bits = bits.iter().cloned().flatten();
    let mut masks: Vec<u64> = bits.map(|bit| 1 << bit).collect();
    masks.push(masks.iter().sum());
    masks
}

fn with(address: u64, answer: Answer, what: &str, mask: u64) -> Stated {
    stated(address, answer, &format!("{}, bits 0x{:X}", what, mask))
}

/// Entries at the given levels that lead to the same last-level entry, for frame 0x105.
fn table_entries() -> Group {
    let mut tables = Tables::new();
    let found = tables.last(0x10_5001) + 0x123;
    let mut list = Vec::new();
    for (level, what) in [(1, "level one"), (2, "level two"), (3, "level three")] {
        for (place, mask) in masks(TABLE).into_iter().enumerate() {
            let index = 0x20 + place as u64;
            tables.upper(level, index, Tables::table_below(level) | mask);
            // The levels below keep the indices that lead to the last-level table.
            let below = if level == 3 { 0 } else { USER };
            let address = index << (48 - 9 * level) | below | found;
            list.push(with(address, [1, 0x5123, 4], what, mask));
        }
    }
    Group {
        what: "ignored bits of an entry for a table",
        case: tables.case,
        stated: list,
    }
}

/// The base is frame 0, and address bits 12 and up name frame 0x105.
fn large_pages() -> Group {
    let mut tables = Tables::new();
    let mut list = Vec::new();
    for (level, answer, what) in [
        (2, [1, 0x5123, 2], "1 GiB page"),
        (3, [1, 0x5123, 3], "2 MiB page"),
    ] {
        for (place, mask) in masks(LARGE).into_iter().enumerate() {
            let index = 0x20 + place as u64;
            tables.upper(level, index, 0x81 | mask);
            let address = index << (48 - 9 * level) | 0x10_5123;
            list.push(with(address, answer, what, mask));
        }
    }
    Group {
        what: "ignored bits of an entry for a large page",
        case: tables.case,
        stated: list,
    }
}

fn entries_not_valid() -> Group {
    let mut tables = Tables::new();
    let mut list = Vec::new();
    for (level, answer, what) in [
        (1, [21, 0, 1], "level one"),
        (2, [21, 0, 2], "level two"),
        (3, [22, 0, 3], "level three"),
    ] {
        for (place, mask) in masks(NOT_VALID).into_iter().enumerate() {
            let index = 0x20 + place as u64;
            tables.upper(level, index, mask);
            list.push(with(index << (48 - 9 * level), answer, what, mask));
        }
    }
    Group {
        what: "ignored bits of an upper entry that is not valid",
        case: tables.case,
        stated: list,
    }
}

fn last_entries() -> Group {
    let mut tables = Tables::new();
    let named = naming(tables.prototype(0x10_6001));
    let vad = 0xFFFF_FFFF_0000_0400;
    let mut list = Vec::new();
    for (entry, bits, answer, what) in [
        (0x10_5001, VALID, [1, 0x5123, 4], "valid"),
        (0x10_5800, TRANSITION, [1, 0x5123, 4], "transition"),
        (named, PROTOTYPE, [1, 0x6123, 9], "prototype"),
        (vad, PROTOTYPE, [22, 0, 4], "VAD prototype"),
        (0x1_0000_0000, SOFTWARE, [2, 0x1123, 4], "pagefile"),
        (0x1_0040_0000, STORED, [31, 0, 4], "compressed store"),
        // Each of the bits makes it other than 0, which would be 22.
        (0, ZEROS, [3, 0, 4], "page of zeros"),
    ] {
        for mask in masks(bits) {
            let page = tables.last(entry | mask);
            list.push(with(USER + page + 0x123, answer, what, mask));
        }
    }
    Group {
        what: "ignored bits of a last-level entry",
        case: tables.case,
        stated: list,
    }
}

fn prototype_entries() -> Group {
    let mut tables = Tables::new();
    let mut list = Vec::new();
    for (entry, bits, answer, what) in [
        (0x10_5001, VALID, [1, 0x5123, 9], "valid"),
        (0x10_5800, TRANSITION, [1, 0x5123, 9], "transition"),
        (0x400, SUBSECTION, [25, 0, 9], "subsection"),
        (0x1_0000_0000, SOFTWARE, [2, 0x1123, 9], "pagefile"),
        (0x1_0040_0000, STORED, [31, 0, 9], "compressed store"),
        (0, ZEROS, [3, 0, 9], "page of zeros"),
    ] {
        for mask in masks(bits) {
            let page = tables.behind_prototype(entry | mask);
            list.push(with(USER + page + 0x123, answer, what, mask));
        }
    }
    Group {
        what: "ignored bits of a prototype entry",
        case: tables.case,
        stated: list,
    }
}
