//! Images with processor blocks in them, and with what is nearly one.

use crate::common::case_files::CaseFiles;
use crate::common::many_runs::Edges;
use crate::common::memory::{canonical, Home, Memory, EDGE_PAGES, LAST_LEVEL, PAGE_BYTES};
use crate::common::random::Xorshift;

const SELF: usize = 0x18;
const SECOND: usize = 0x20;
const DIRECTORY: usize = 0x1D0;
const SECOND_PAST_SELF: u64 = 0x180;
/// The last place of a block in its page.
const LAST_PLACE: u64 = 0xE28;

/// In what a laid block differs from a real one.
#[derive(Clone, Copy, PartialEq)]
enum Flaw {
    None,
    LowHalf,
    InPagefile,
    OtherPage,
    Unaligned,
    PastLimit,
    Delta,
    WideDirectory,
    OtherDirectory,
    ReservedBit,
}

/// Flaws are laid as often as none.
const FLAWS: [Flaw; 18] = [
    Flaw::None,
    Flaw::None,
    Flaw::None,
    Flaw::None,
    Flaw::None,
    Flaw::None,
    Flaw::None,
    Flaw::None,
    Flaw::None,
    Flaw::LowHalf,
    Flaw::InPagefile,
    Flaw::OtherPage,
    Flaw::Unaligned,
    Flaw::PastLimit,
    Flaw::Delta,
    Flaw::WideDirectory,
    Flaw::OtherDirectory,
    Flaw::ReservedBit,
];

/// Lays one to four blocks, whole or flawed, and gives their image offsets.
pub fn lay_blocks(memory: &mut Memory) -> Vec<usize> {
    let how_many = 1 + memory.random.below(4);
    (0..how_many).map(|_| lay_block(memory)).collect()
}

/// Lays the tables, then the three words.
fn lay_block(memory: &mut Memory) -> usize {
    let flaw = FLAWS[memory.random.below(FLAWS.len() as u64) as usize];
    let sheet_directory = memory.directory;
    if memory.random.below(3) > 0 {
        memory.directory = memory.take_table();
    }
    let place = place_for(flaw, &mut memory.random);
    let (page, image_page) = lay_own_page(memory, flaw);
    let offset = image_page * PAGE_BYTES + place as usize;
    let mut directory = directory_word(memory);
    match flaw {
        Flaw::WideDirectory => directory |= memory.wide(),
        Flaw::OtherDirectory => {
            let outside = memory.frame_outside();
            directory = outside << 12;
        }
        _ => {}
    }
    let past = match flaw {
        Flaw::Delta => [0, 0x178, 0x188, 0x181, 0x100][memory.random.below(5) as usize],
        _ => SECOND_PAST_SELF,
    };
    put_block(memory, offset, page + place, past, directory);
    memory.directory = sheet_directory;
    offset
}

/// Puts the three words of a block at an image offset, as far as they lie in the image.
fn put_block(memory: &mut Memory, offset: usize, own: u64, past: u64, directory: u64) {
    let words = [
        (SELF, own),
        (SECOND, own.wrapping_add(past)),
        (DIRECTORY, directory),
    ];
    for (at, word) in words {
        if offset + at + 8 <= memory.image.len() {
            memory.put_word(offset + at, word);
        }
    }
}

/// Lays blocks into the first and the last page of a run, each behind one whose own address is in the gap beside the
/// run; the image offsets of the two.
pub fn lay_blocks_at_edges(memory: &mut Memory, edges: &Edges) -> [usize; 2] {
    let [before, first, last, after] = edges.pages;
    let [first_page, last_page] = edges.image_pages;
    // A run of one page has all four.
    let quarters = [
        (before, first_page),
        (first, first_page),
        (after, last_page),
        (last, last_page),
    ];
    let mut quarter = 0;
    let [_, at_first, _, at_last] = quarters.map(|(page, image_page)| {
        let place = quarter + 8 * memory.random.below((LAST_PLACE - 0xC00) / 8 + 1);
        let offset = image_page * PAGE_BYTES + place as usize;
        let directory = directory_word(memory);
        put_block(memory, offset, page + place, SECOND_PAST_SELF, directory);
        quarter += 0x400;
        offset
    });
    [at_first, at_last]
}

/// A block's place in its page, often the first or the last that is allowed.
fn place_for(flaw: Flaw, random: &mut Xorshift) -> u64 {
    let place = match random.below(6) {
        0 => 0,
        1 | 2 => LAST_PLACE,
        3 => LAST_PLACE - 8,
        _ => 8 * random.below(LAST_PLACE / 8 + 1),
    };
    match flaw {
        Flaw::Unaligned => place.saturating_sub(4) | 4,
        Flaw::PastLimit if random.below(2) == 0 => LAST_PLACE + 8,
        Flaw::PastLimit => LAST_PLACE + 8 * (1 + random.below(0x36)),
        _ => place,
    }
}

/// The directory's frame, with noise in the bits that say nothing.
fn directory_word(memory: &mut Memory) -> u64 {
    let frame = memory.frames[memory.directory];
    let noise = match memory.random.below(3) {
        0 => 0,
        1 => 0xFFF0_0000_0000_0FFF,
        _ => memory.random.next() & 0xFFF0_0000_0000_0FFF,
    };
    frame << 12 | noise
}

/// The virtual page that a block takes itself to be in, and the image page where it is.
fn lay_own_page(memory: &mut Memory, flaw: Flaw) -> (u64, usize) {
    match flaw {
        Flaw::InPagefile => return lay_in_pagefile(memory),
        Flaw::ReservedBit => return lay_behind_reserved_bit(memory),
        _ => {}
    }
    // A page that is found in the wanted half may take several tries.
    for _ in 0..4 {
        let prototypes = [0, 0, 1, 2, 3][memory.random.below(5) as usize];
        let (page, home) = memory.lay(prototypes, None);
        let low = page >> 63 == 0;
        if let (Home::Image(found), true) = (home, low == (flaw == Flaw::LowHalf)) {
            return match flaw {
                Flaw::OtherPage => (page, memory.any_page()),
                _ => (page, found),
            };
        }
    }
    let image_page = memory.take_page();
    let page = match memory.random.below(3) {
        0 => EDGE_PAGES[2],
        1 => EDGE_PAGES[3],
        _ => canonical(memory.fresh_page() | 1 << 47),
    };
    let entry = memory.valid_in(memory.frames[image_page]);
    memory.put_entry(page, LAST_LEVEL, entry);
    (page, image_page)
}

/// A large page that holds one of the image's frames but for a reserved bit of its entry.
fn lay_behind_reserved_bit(memory: &mut Memory) -> (u64, usize) {
    let level = 2 + memory.random.below(2) as u32;
    let image_page = memory.take_page();
    let frame = memory.frames[image_page];
    let page = canonical(memory.page_in_large(level, frame) | 1 << 47);
    let entry = memory.reserved(frame, level);
    memory.put_entry(page, level, entry);
    (page, image_page)
}

/// A page of the pagefile with the number of an image page.
fn lay_in_pagefile(memory: &mut Memory) -> (u64, usize) {
    let pages = (memory.pagefile.len() / PAGE_BYTES).min(memory.frames.len());
    let image_page = match pages {
        0 | 1 => 1,
        _ => 1 + memory.random.below(pages as u64 - 1) as usize,
    };
    let page = canonical(memory.fresh_page() | 1 << 47);
    let entry = memory.software(image_page as u64);
    memory.put_entry(page, LAST_LEVEL, entry);
    (page, image_page)
}

/// An offset at, beside or far from a block, or past the image.
pub fn offset_about(block: usize, image_length: usize, random: &mut Xorshift) -> u64 {
    let block = block as u64;
    let end = image_length as u64;
    match random.below(12) {
        0 | 1 => 0,
        2 | 3 => block,
        4 => block.saturating_sub(8),
        5 => block.saturating_sub(random.below(16)),
        6 => block + 1 + random.below(8),
        7 => block + 8,
        8 => random.below(end + 1),
        9 => (end + random.below(32)).saturating_sub(16),
        10 => u64::MAX - random.below(16),
        _ => random.up_to_bits(63),
    }
}

/// Flips a bit of one of a block's words, or moves both addresses alike.
pub fn damage_block(files: &mut CaseFiles, block: usize, random: &mut Xorshift) {
    let at = block + [SELF, SECOND, DIRECTORY][random.below(3) as usize];
    let change = [8, 16, 0x1000, 0x20_0000][random.below(4) as usize];
    match random.below(3) {
        0 => {
            add(files, block + SELF, change);
            add(files, block + SECOND, change);
        }
        _ => {
            let bit = random.below(64) as usize;
            if let Some(byte) = files.image.get_mut(at + bit / 8) {
                *byte ^= 1 << (bit % 8);
            }
        }
    }
}

/// Adds to a word of the image.
fn add(files: &mut CaseFiles, offset: usize, change: u64) {
    if let Some(bytes) = files.image.get_mut(offset..offset + 8) {
        let word = u64::from_le_bytes((&*bytes).try_into().expect("a word has 8 bytes"));
        bytes.copy_from_slice(&word.wrapping_add(change).to_le_bytes());
    }
}
