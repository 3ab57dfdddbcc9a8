//! Ranges of neighbour pages, laid so that extents form and end in every way.

use crate::common::memory::{
    canonical, entry_offset, Home, Memory, ENTRIES_IN_TABLE, LAST_LEVEL, PAGE_BYTES,
};

/// The first byte's address and the page count.
#[derive(Clone, Copy)]
pub struct Range {
    pub start: u64,
    pub pages: u64,
}

pub const PAGE: u64 = PAGE_BYTES as u64;
const LARGE_PAGE: u64 = PAGE * ENTRIES_IN_TABLE;
const GIGABYTE: u64 = LARGE_PAGE * ENTRIES_IN_TABLE;

/// The first addresses of the two halves, and those behind their last bytes.
const HALF_STARTS: [u64; 2] = [0, 0xFFFF_8000_0000_0000];
pub const HALF_ENDS: [u64; 2] = [0x0000_8000_0000_0000, 0];

/// Lays up to 24 neighbour pages, often at the edges of a half or of a table.
pub fn lay_range(memory: &mut Memory) -> Range {
    let pages = 1 + memory.random.below(24);
    let which = memory.random.below(2) as usize;
    let start = match memory.random.below(8) {
        0 => HALF_STARTS[which],
        1 => canonical(HALF_ENDS[which].wrapping_sub(pages * PAGE)),
        2 | 3 => {
            let table_end = memory.fresh_page() | (LARGE_PAGE - 1);
            table_end - memory.random.below(pages) * PAGE - (PAGE - 1)
        }
        _ => memory.fresh_page(),
    };
    let entries = alike_entries(memory, pages);
    let laid = put_entries(memory, start, &entries);
    Range { start, pages: laid }
}

/// Lays thousands of pages by few tables, each used again and again.
pub fn lay_wide_range(memory: &mut Memory) -> Range {
    let start = memory.page_beside_tables(3) & !(LARGE_PAGE - 1);
    let tables = 4 + memory.random.below(16);
    let entries = alike_entries(memory, ENTRIES_IN_TABLE);
    put_entries(memory, start, &entries);
    let filled = entry_at(memory, start, 3);
    let mut laid = 1;
    while laid < tables {
        let page = start.wrapping_add(laid * LARGE_PAGE);
        if page != canonical(page) || page == 0 {
            break;
        }
        if let (Some(entry), true) = (filled, memory.random.below(2) == 0) {
            memory.put_entry(page, 3, entry);
        } else if memory.random.below(2) == 0 {
            let entry = upper_entry(memory, 3);
            memory.put_entry(page, 3, entry);
        }
        laid += 1;
    }
    Range {
        start,
        pages: laid * ENTRIES_IN_TABLE,
    }
}

/// Lays the 2^20 pages of 4 GiB by few tables, each used again and again.
pub fn lay_giant_range(memory: &mut Memory) -> Range {
    let which = memory.random.below(2) as usize;
    let start = match memory.random.below(3) {
        0 => HALF_STARTS[which],
        1 => canonical(HALF_ENDS[which].wrapping_sub(4 * GIGABYTE)),
        _ => canonical(memory.page_beside_tables(2) & !(8 * GIGABYTE - 1)),
    };
    let entries = alike_entries(memory, ENTRIES_IN_TABLE);
    put_entries(memory, start, &entries);
    let filled = entry_at(memory, start, 3);
    for table in 1..ENTRIES_IN_TABLE {
        let entry = match (filled, memory.random.below(16)) {
            (Some(entry), 0) => entry,
            (_, 1..=3) => upper_entry(memory, 3),
            _ => continue,
        };
        memory.put_entry(start + table * LARGE_PAGE, 3, entry);
    }
    let filled = entry_at(memory, start, 2);
    for gigabyte in 1..4 {
        let entry = match (filled, memory.random.below(4)) {
            (Some(entry), 0..=2) => entry,
            _ => upper_entry(memory, 2),
        };
        memory.put_entry(start + gigabyte * GIGABYTE, 2, entry);
    }
    Range {
        start,
        pages: 4 * GIGABYTE / PAGE,
    }
}

/// Puts last-level entries one after another, up to the end of the half.
fn put_entries(memory: &mut Memory, start: u64, entries: &[u64]) -> u64 {
    let mut laid = 0;
    for entry in entries {
        let page = start.wrapping_add(laid * PAGE);
        if page != canonical(page) || page < start {
            break;
        }
        memory.put_entry(page, LAST_LEVEL, *entry);
        laid += 1;
    }
    laid
}

/// A large page, or an entry that no table or large page comes of.
fn upper_entry(memory: &mut Memory, level: u32) -> u64 {
    let page = memory.any_page();
    let frame = memory.frames[page];
    match memory.random.below(7) {
        0 | 1 => memory.large(frame, level),
        2 => memory.large(frame, level) | memory.wide(),
        3 => {
            let outside = memory.frame_outside();
            memory.table(outside)
        }
        4 => memory.table(frame) | memory.wide(),
        5 => memory.reserved(frame, level),
        _ => memory.random.next() & !1,
    }
}

/// The entry for a page at a level, if tables lead there.
fn entry_at(memory: &Memory, page: u64, level: u32) -> Option<u64> {
    let mut table = memory.directory;
    for upper in 1..level {
        let entry = memory.word(entry_offset(table, page, upper));
        table = memory.table_in(entry)?;
    }
    Some(memory.word(entry_offset(table, page, level)))
}

/// Last-level entries in stretches that are alike in some way.
fn alike_entries(memory: &mut Memory, how_many: u64) -> Vec<u64> {
    let mut shelf = Shelf::new(memory);
    let mut entries = Vec::new();
    while (entries.len() as u64) < how_many {
        let stretch = 1 + memory.random.below(6) as usize;
        match memory.random.below(12) {
            0..=6 => {
                for page in file_pages(memory, stretch) {
                    entries.push(shelf.entry(memory, page));
                }
            }
            7 => {
                let zeros = memory.software(0) | 0x80;
                entries.extend(vec![zeros; stretch]);
            }
            8 => {
                let odd = memory.odd_entry();
                entries.extend(vec![odd; stretch]);
            }
            9 => entries.extend((0..stretch).map(|_| memory.odd_entry())),
            10 => entries.extend(vec![chain_entry(memory); stretch]),
            _ => entries.extend((0..stretch).map(|_| memory.found_entry().0)),
        }
    }
    entries.truncate(how_many as usize);
    entries
}

/// The entry of a page laid behind one to four prototype entries.
fn chain_entry(memory: &mut Memory) -> u64 {
    let prototypes = 1 + memory.random.below(4) as u32;
    let odd = match memory.random.below(2) {
        0 => None,
        _ => Some(memory.random.below(u64::from(prototypes) + 1) as u32),
    };
    let (page, _) = memory.lay(prototypes, odd);
    entry_at(memory, page, LAST_LEVEL).unwrap_or(0)
}

/// A page of one of the two files.
#[derive(Clone, Copy)]
enum FilePage {
    Image(usize),
    Pagefile(usize),
}

/// Pages that follow each other in a file, or nearly do.
fn file_pages(memory: &mut Memory, how_many: usize) -> Vec<FilePage> {
    let way = memory.random.below(8);
    let by_turns = way == 7;
    let in_pagefile = memory.random.below(3) == 0;
    let any = memory.any_page();
    let first = match in_pagefile || by_turns {
        true => 1 + any % (memory.pagefile.len() / PAGE_BYTES).max(1),
        false => any,
    };
    let file_page = |step: usize| {
        let page = match way {
            4 => first,
            5 => first.saturating_sub(step),
            6 => first + 2 * step,
            _ => first + step,
        };
        match (by_turns && step % 2 == 1) != in_pagefile {
            true => FilePage::Pagefile(page),
            false => FilePage::Image(page),
        }
    };
    (0..how_many).map(file_page).collect()
}

/// A page for prototype entries, so that pages are found by way of them.
struct Shelf {
    page: u64,
    home: Home,
    used: u64,
}

impl Shelf {
    fn new(memory: &mut Memory) -> Self {
        let (page, home) = memory.lay(0, None);
        Shelf {
            page,
            home,
            used: 0,
        }
    }

    /// A last-level entry for a file page, sometimes by way of a prototype entry.
    fn entry(&mut self, memory: &mut Memory, page: FilePage) -> u64 {
        let entry = match page {
            FilePage::Pagefile(page) => memory.software(page as u64),
            FilePage::Image(page) => {
                let frame = match memory.frames.get(page) {
                    Some(frame) => *frame,
                    None => memory.frame_outside(),
                };
                match memory.random.below(2) {
                    0 => memory.valid_in(frame),
                    _ => memory.transition_in(frame),
                }
            }
        };
        let on_shelf = matches!(self.home, Home::Image(_) | Home::Pagefile(_));
        if !on_shelf || self.used == ENTRIES_IN_TABLE || memory.random.below(4) > 0 {
            return entry;
        }
        let place = 8 * self.used;
        self.used += 1;
        memory.put_at(self.home, place, entry);
        memory.prototype(self.page + place)
    }
}
