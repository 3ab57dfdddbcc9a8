//! Small images and pagefiles with page tables laid into them, so that each state is reached.

use super::random::Xorshift;

pub const PAGE_BYTES: usize = 4096;
pub const ENTRIES_IN_TABLE: u64 = 512;
pub const LAST_LEVEL: u32 = 4;
pub const FRAME_LIMIT: u64 = 1 << 36;

pub const VALID: u64 = 1;
pub const LARGE: u64 = 1 << 7;
pub const PROTOTYPE: u64 = 1 << 10;
pub const TRANSITION: u64 = 1 << 11;
const IN_STORE: u64 = 1 << 22;

/// Bits 16-63 of a prototype entry that leaves its page to the region record.
const VAD_PROTOTYPE: u64 = 0xFFFF_FFFF_0000;

/// The pages at the edges of the canonical halves, and the one that the VAD value would name.
pub const EDGE_PAGES: [u64; 5] = [
    0,
    0x0000_7FFF_FFFF_F000,
    0xFFFF_8000_0000_0000,
    0xFFFF_FFFF_FFFF_F000,
    0xFFFF_FFFF_FFFF_0000,
];

/// Where a laid page's bytes are.
#[derive(Clone, Copy)]
pub enum Home {
    Image(usize),
    Pagefile(usize),
    Zeros,
    Nowhere,
}

/// Physical memory, a pagefile, and the tables laid so far.
pub struct Memory {
    pub random: Xorshift,
    /// The frame of each image page, in file order.
    pub frames: Vec<u64>,
    pub image: Vec<u8>,
    pub pagefile: Vec<u8>,
    /// The image page of the top table.
    pub directory: usize,
    /// The image offset of each entry put into a table.
    pub put: Vec<usize>,
    unused: Vec<usize>,
    /// Whether a page that is in use as something may become a table.
    tables_anywhere: bool,
    /// Few indices for each upper level, so that addresses share tables.
    indices: [[u64; 2]; 3],
    last_page: u64,
}

impl Memory {
    pub fn new(mut random: Xorshift) -> Self {
        let frames = scattered_frames(&mut random);
        Memory::over(frames, random)
    }

    /// Memory with these frames, ascending.
    pub fn over(frames: Vec<u64>, mut random: Xorshift) -> Self {
        let pages = frames.len();
        let pagefile_pages = random.below(8) as usize;
        let index = ENTRIES_IN_TABLE / 2;
        let mut memory = Memory {
            frames,
            image: random_bytes(&mut random, pages * PAGE_BYTES),
            pagefile: random_bytes(&mut random, pagefile_pages * PAGE_BYTES),
            directory: random.below(pages as u64) as usize,
            put: Vec::new(),
            unused: (0..pages).collect(),
            tables_anywhere: true,
            indices: [
                [random.below(index), index + random.below(index)],
                [random.below(2 * index), random.below(2 * index)],
                [random.below(2 * index), random.below(2 * index)],
            ],
            last_page: 0,
            random,
        };
        memory.unused.swap_remove(memory.directory);
        memory.clear_page(memory.directory);
        memory
    }

    /// From now on each table has one of these pages for itself, the top one too.
    pub fn keep_tables_in(&mut self, pages: Vec<usize>) {
        self.unused = pages;
        self.tables_anywhere = false;
        self.directory = self.take_table();
    }

    pub fn sheet_fields(&self) -> Vec<u64> {
        sheet_fields(self.frames[self.directory], &self.frames)
    }

    /// Lays a page behind so many prototype entries; the odd one, 0 for the last level, is broken.
    pub fn lay(&mut self, prototypes: u32, odd: Option<u32>) -> (u64, Home) {
        if prototypes == 0 {
            return match odd {
                Some(0) => (self.lay_odd(), Home::Nowhere),
                _ => self.lay_found(),
            };
        }
        let (entry_page, entry_home) = self.lay(prototypes - 1, odd);
        let place = self.entry_place();
        let home = match entry_home {
            Home::Nowhere | Home::Zeros => entry_home,
            Home::Image(_) | Home::Pagefile(_) if odd == Some(prototypes) => {
                let entry = self.odd_entry();
                self.put_at(entry_home, place, entry);
                Home::Nowhere
            }
            Home::Image(_) | Home::Pagefile(_) => {
                let (entry, home) = self.found_entry();
                self.put_at(entry_home, place, entry);
                home
            }
        };
        let page = self.fresh_page();
        let entry = self.prototype(entry_page + place);
        self.put_entry(page, LAST_LEVEL, entry);
        (page, home)
    }

    /// Lays neighbour pages, most of them found, sometimes on both sides of a canonical edge.
    pub fn lay_row(&mut self) -> [u64; 3] {
        let first = match self.random.below(3) {
            0 => {
                let edge = EDGE_PAGES[self.random.below(4) as usize];
                edge.wrapping_sub(self.random.below(3) * PAGE_BYTES as u64)
            }
            _ => self.fresh_page(),
        };
        [0, 1, 2].map(|step| {
            let page = canonical(first.wrapping_add(step * PAGE_BYTES as u64));
            let entry = match self.random.below(6) {
                0 => self.odd_entry(),
                _ => self.found_entry().0,
            };
            self.put_entry(page, LAST_LEVEL, entry);
            page
        })
    }

    /// A prototype entry's place in its page, often the first or the last.
    fn entry_place(&mut self) -> u64 {
        match self.random.below(8) {
            0 => 0,
            1 => 8 * (ENTRIES_IN_TABLE - 1),
            _ => 8 * self.random.below(ENTRIES_IN_TABLE),
        }
    }

    /// Lays a page that is found without a prototype entry.
    fn lay_found(&mut self) -> (u64, Home) {
        match self.random.below(10) {
            0 => self.lay_large(2),
            1 | 2 => self.lay_large(3),
            _ => {
                let (entry, home) = self.found_entry();
                let page = self.fresh_page();
                self.put_entry(page, LAST_LEVEL, entry);
                (page, home)
            }
        }
    }

    /// Lays a page that the walk may refuse, at any level.
    fn lay_odd(&mut self) -> u64 {
        match self.random.below(10) {
            0..=2 => self.lay_odd_upper(),
            3 => self.lay_odd_large(),
            4 | 5 => self.lay_reserved(),
            _ => {
                let entry = self.odd_entry();
                let page = self.fresh_page();
                self.put_entry(page, LAST_LEVEL, entry);
                page
            }
        }
    }

    /// A large page that holds one of the image's frames.
    pub fn lay_large(&mut self, level: u32) -> (u64, Home) {
        let image_page = self.take_page();
        let frame = self.frames[image_page];
        let page = self.page_in_large(level, frame);
        let entry = self.large(frame, level);
        self.put_entry(page, level, entry);
        (page, Home::Image(image_page))
    }

    /// A large page whose own frame is in no run, or whose entry is wide, or both.
    fn lay_odd_large(&mut self) -> u64 {
        let level = 2 + self.random.below(2) as u32;
        let (frame, wide) = match self.random.below(2) {
            0 => (self.frame_outside(), 0),
            _ => (self.any_frame(), self.wide()),
        };
        let page = self.page_in_large(level, frame);
        let entry = self.large(frame, level) | wide;
        self.put_entry(page, level, entry);
        page
    }

    /// Lays a page behind an entry with a reserved bit, which may be wide too.
    pub fn lay_reserved(&mut self) -> u64 {
        let level = 1 + self.random.below(3) as u32;
        let frame = self.any_frame();
        let page = match level {
            1 => self.page_beside_tables(1),
            _ => self.page_in_large(level, frame),
        };
        let wide = match self.random.below(8) {
            0 => self.wide(),
            _ => 0,
        };
        let entry = self.reserved(frame, level) | wide;
        self.put_entry(page, level, entry);
        page
    }

    /// Lays a page behind an odd entry above the last level.
    fn lay_odd_upper(&mut self) -> u64 {
        let level = 1 + self.random.below(3) as u32;
        let page = self.page_beside_tables(level);
        let entry = self.odd_upper_entry(level);
        self.put_entry(page, level, entry);
        page
    }

    /// An entry above the last level that is not valid, wide, has a reserved bit, or names a table in no run.
    pub fn odd_upper_entry(&mut self, level: u32) -> u64 {
        match self.random.below(7) {
            0 => 0,
            1 => self.random.next() & !VALID,
            2 => self.transition_in(self.frames[0]),
            3 => {
                let outside = self.frame_outside();
                self.table(outside)
            }
            4 => {
                let frame = self.any_frame();
                self.reserved(frame, level)
            }
            _ => {
                let frame = self.any_frame();
                self.table(frame) | self.wide()
            }
        }
    }

    /// An entry that names a page of either file or of zeros.
    pub fn found_entry(&mut self) -> (u64, Home) {
        let pagefile_pages = self.pagefile.len() / PAGE_BYTES;
        match self.random.below(8) {
            0 | 1 if pagefile_pages > 1 => {
                let page = 1 + self.random.below(pagefile_pages as u64 - 1);
                (self.software(page), Home::Pagefile(page as usize))
            }
            2 => {
                // Bits 1-4 say nothing without a page number.
                let noise = self.noise(0x1E) | 0x80;
                (self.software(0) | noise, Home::Zeros)
            }
            3 | 4 => {
                let page = self.take_page();
                (self.transition_in(self.frames[page]), Home::Image(page))
            }
            _ => {
                let page = self.take_page();
                (self.valid_in(self.frames[page]), Home::Image(page))
            }
        }
    }

    /// An entry at the edge of a rule, at last level or as prototype entry.
    pub fn odd_entry(&mut self) -> u64 {
        match self.random.below(21) {
            0 | 1 => 0,
            2 => {
                let outside = self.frame_outside();
                self.valid_in(outside)
            }
            3 | 4 => {
                let frame = self.any_frame();
                self.valid_in(frame) | self.wide()
            }
            5 => {
                let outside = self.frame_outside();
                self.transition_in(outside)
            }
            6 => VAD_PROTOTYPE << 16 | PROTOTYPE | self.noise(0xFBFE),
            7 => self.almost_vad_prototype(),
            8 | 9 => self.unaligned_prototype(),
            10 => self.random.next() & !VALID | PROTOTYPE,
            11 | 12 => self.past_pagefile(),
            13..=15 => {
                let pagefile_page = self.any_pagefile_page();
                let other_pagefile = match self.random.below(2) {
                    0 => 1 << (1 + self.random.below(4)),
                    _ => (1 + self.random.below(15)) << 1,
                };
                self.software(pagefile_page) | other_pagefile
            }
            16..=19 => self.in_store(),
            _ => self.random.next(),
        }
    }

    /// A VAD prototype but for one bit of its address.
    fn almost_vad_prototype(&mut self) -> u64 {
        let vad = VAD_PROTOTYPE << 16 | PROTOTYPE | self.noise(0xFBFE);
        vad ^ 1 << (16 + self.random.below(48))
    }

    /// A prototype address inside or outside the tables, but for its last three bits.
    fn unaligned_prototype(&mut self) -> u64 {
        let place = 8 * self.random.below(ENTRIES_IN_TABLE) + 1 + self.random.below(7);
        let page = match self.random.below(4) {
            0 => self.random.next() & !0xFFF,
            _ => self.last_page,
        };
        self.prototype(page + place)
    }

    /// The first pages past the pagefile's end, and far ones that look near in fewer bits.
    fn past_pagefile(&mut self) -> u64 {
        let pages = (self.pagefile.len() / PAGE_BYTES) as u64;
        let page = match self.random.below(4) {
            0 => pages + self.random.below(3),
            1 => (1 << (20 + self.random.below(12))) + self.random.below(pages + 1),
            2 => pages.max(2) - 1,
            _ => pages.max(1),
        };
        self.software(page)
    }

    /// A page of the compressed store whatever its pagefile; without a page number, a page of zeros.
    fn in_store(&mut self) -> u64 {
        let pagefile_page = self.any_pagefile_page();
        self.software(pagefile_page) | self.noise(0x1E) | IN_STORE
    }

    fn any_pagefile_page(&mut self) -> u64 {
        let pages = (self.pagefile.len() / PAGE_BYTES) as u64;
        match self.random.below(4) {
            0 => 0,
            1 => self.random.up_to_bits(32),
            _ => 1 + self.random.below(pages + 2),
        }
    }

    /// None, all, or some at random of the bits that say nothing.
    pub fn noise(&mut self, ignored: u64) -> u64 {
        match self.random.below(4) {
            0 => 0,
            1 => ignored,
            _ => self.random.next() & ignored,
        }
    }

    /// At least one of bits 48-51.
    pub fn wide(&mut self) -> u64 {
        match self.random.below(3) {
            0 => 0xF << 48,
            1 => 1 << (48 + self.random.below(4)),
            _ => (1 + self.random.below(15)) << 48,
        }
    }

    /// A valid entry that names a table.
    pub fn table(&mut self, frame: u64) -> u64 {
        frame << 12 | self.noise(0xFFF0_0000_0000_0F7E) | VALID
    }

    /// A valid entry for a large page; of the bits below its base, bit 12 says nothing.
    pub fn large(&mut self, frame: u64, level: u32) -> u64 {
        let low_bits = (1 << lowest_base_bit(level)) - 1;
        let noise = self.noise(0xFFF0_0000_0000_1FFE);
        (frame << 12 & !low_bits) | noise | LARGE | VALID
    }

    /// A valid entry with a reserved bit: bit 7 at level one, else one or more from bit 13 up to the large page's base.
    pub fn reserved(&mut self, frame: u64, level: u32) -> u64 {
        if level == 1 {
            return self.table(frame) | LARGE;
        }
        let bits = u64::from(lowest_base_bit(level)) - 13;
        let reserved = match self.random.below(4) {
            0 => 1,
            1 => 1 << (bits - 1),
            2 => 1 << self.random.below(bits),
            _ => 1 + self.random.below((1 << bits) - 1),
        };
        self.large(frame, level) | reserved << 13
    }

    pub fn valid_in(&mut self, frame: u64) -> u64 {
        frame << 12 | self.noise(0xFFF0_0000_0000_0FFE) | VALID
    }

    pub fn transition_in(&mut self, frame: u64) -> u64 {
        frame << 12 | self.noise(0xFFFF_0000_0000_03FE) | TRANSITION
    }

    pub fn prototype(&mut self, address: u64) -> u64 {
        address << 16 | self.noise(0xFBFE) | PROTOTYPE
    }

    /// A software entry for a page that is not in the store; without a page number, bit 22 says nothing.
    pub fn software(&mut self, pagefile_page: u64) -> u64 {
        let store = match pagefile_page {
            0 => IN_STORE,
            _ => 0,
        };
        pagefile_page << 32 | self.noise(0xFFBF_F3E0 | store)
    }

    /// A page of the image, an unused one while there are any.
    pub fn take_page(&mut self) -> usize {
        self.take_unused().unwrap_or_else(|| self.any_page())
    }

    /// A page to use as table: mostly an empty one, else one that is in use as something.
    pub fn take_table(&mut self) -> usize {
        if self.tables_anywhere && self.random.below(40) == 0 {
            return self.any_page();
        }
        match self.take_unused() {
            Some(page) => {
                self.clear_page(page);
                page
            }
            None => self.any_page(),
        }
    }

    fn take_unused(&mut self) -> Option<usize> {
        if self.unused.is_empty() {
            return None;
        }
        let which = self.random.below(self.unused.len() as u64) as usize;
        Some(self.unused.swap_remove(which))
    }

    pub fn any_page(&mut self) -> usize {
        self.random.below(self.frames.len() as u64) as usize
    }

    fn clear_page(&mut self, page: usize) {
        self.image[page * PAGE_BYTES..(page + 1) * PAGE_BYTES].fill(0);
    }

    /// A frame in a run or in none.
    fn any_frame(&mut self) -> u64 {
        match self.random.below(2) {
            0 => self.frame_outside(),
            _ => {
                let page = self.any_page();
                self.frames[page]
            }
        }
    }

    /// A frame in no run, often right beside one or like one but for a bit.
    pub fn frame_outside(&mut self) -> u64 {
        loop {
            let page = self.any_page();
            let near = self.frames[page];
            let frame = match self.random.below(4) {
                0 => near + 1,
                1 => near.saturating_sub(1),
                2 => near ^ 1 << self.random.below(36),
                _ => self.random.up_to_bits(36),
            };
            if frame < FRAME_LIMIT && self.frames.binary_search(&frame).is_err() {
                return frame;
            }
        }
    }

    /// A page with no entry of its own yet, in most cases.
    pub fn fresh_page(&mut self) -> u64 {
        let page = match self.random.below(24) {
            0 => EDGE_PAGES[self.random.below(5) as usize],
            1..=7 => self.last_page.wrapping_add(PAGE_BYTES as u64),
            _ => self.page_beside_tables(LAST_LEVEL),
        };
        self.last_page = canonical(page);
        self.last_page
    }

    /// A page that shares its tables down to a level, and is anywhere from there on.
    pub fn page_beside_tables(&mut self, level: u32) -> u64 {
        let mut page = self.random.next() & !0xFFF;
        for upper in 1..level {
            let which = self.random.below(2) as usize;
            let shift = 12 + 9 * (LAST_LEVEL - upper);
            page &= !((ENTRIES_IN_TABLE - 1) << shift);
            page |= self.indices[upper as usize - 1][which] << shift;
        }
        canonical(page)
    }

    /// A page whose own frame within a large page is this one.
    pub fn page_in_large(&mut self, level: u32, frame: u64) -> u64 {
        let low_bits = (1 << lowest_base_bit(level)) - 1;
        (self.page_beside_tables(level) & !low_bits) | (frame << 12 & low_bits)
    }

    /// Puts the entry for a page at a level, with the tables above it where they are missing.
    pub fn put_entry(&mut self, page: u64, level: u32, entry: u64) {
        let mut table = self.directory;
        for upper in 1..level {
            let offset = entry_offset(table, page, upper);
            table = match self.table_in(self.word(offset)) {
                Some(table) => table,
                None => {
                    let taken = self.take_table();
                    let entry = self.table(self.frames[taken]);
                    self.put_word(offset, entry);
                    taken
                }
            };
        }
        self.put_word(entry_offset(table, page, level), entry);
    }

    /// The image page of the table that an entry names, if it names one.
    pub fn table_in(&self, entry: u64) -> Option<usize> {
        if entry & (VALID | LARGE) != VALID || entry >> 48 & 0xF != 0 {
            return None;
        }
        self.frames
            .binary_search(&(entry >> 12 & (FRAME_LIMIT - 1)))
            .ok()
    }

    pub fn word(&self, offset: usize) -> u64 {
        let bytes = &self.image[offset..offset + 8];
        u64::from_le_bytes(bytes.try_into().expect("a word has 8 bytes"))
    }

    pub fn put_word(&mut self, offset: usize, word: u64) {
        self.image[offset..offset + 8].copy_from_slice(&word.to_le_bytes());
        self.put.push(offset);
    }

    /// Puts a prototype entry into the page it was laid for.
    pub fn put_at(&mut self, home: Home, place: u64, entry: u64) {
        match home {
            Home::Image(page) => self.put_word(page * PAGE_BYTES + place as usize, entry),
            Home::Pagefile(page) => {
                let offset = page * PAGE_BYTES + place as usize;
                self.pagefile[offset..offset + 8].copy_from_slice(&entry.to_le_bytes());
            }
            Home::Zeros | Home::Nowhere => {}
        }
    }
}

/// Edition, directory page, run count, then gap and length of each run of ascending frames.
pub fn sheet_fields(directory_page: u64, frames: &[u64]) -> Vec<u64> {
    let mut fields = vec![1, directory_page, 0];
    let mut end = 0;
    for frame in frames {
        if *frame == end && fields[2] > 0 {
            *fields.last_mut().expect("a run is open") += 1;
        } else {
            fields[2] += 1;
            fields.extend([frame - end, 1]);
        }
        end = frame + 1;
    }
    fields
}

/// Bits 48-63 made equal to bit 47.
pub fn canonical(address: u64) -> u64 {
    ((address << 16) as i64 >> 16) as u64
}

/// 30 for the large pages of level two, 21 for those of level three.
fn lowest_base_bit(level: u32) -> u32 {
    12 + 9 * (LAST_LEVEL - level)
}

/// The image offset of the entry for a page in a table, which is an image page.
pub fn entry_offset(table: usize, page: u64, level: u32) -> usize {
    let shift = 12 + 9 * (LAST_LEVEL - level);
    table * PAGE_BYTES + 8 * (page >> shift & (ENTRIES_IN_TABLE - 1)) as usize
}

fn random_bytes(random: &mut Xorshift, length: usize) -> Vec<u8> {
    let mut bytes = Vec::with_capacity(length);
    while bytes.len() < length {
        bytes.extend(random.next().to_le_bytes());
    }
    bytes
}

/// The frames of 4 to 40 pages in 1 to 32 runs, ascending.
fn scattered_frames(random: &mut Xorshift) -> Vec<u64> {
    let runs = 1 + random.below(32);
    let least = runs.max(4);
    let mut spare = least + random.below(41 - least) - runs;
    let mut lengths = Vec::new();
    for run in 0..runs {
        let more = match run + 1 == runs {
            true => spare,
            false => random.below(spare.min(8) + 1),
        };
        spare -= more;
        lengths.push(1 + more);
    }
    let to_top = random.below(4) == 0;
    frames_in_runs(&lengths, to_top, random)
}

/// The frames of runs of these lengths, ascending; the last run ends at the top or anywhere.
pub fn frames_in_runs(lengths: &[u64], to_top: bool, random: &mut Xorshift) -> Vec<u64> {
    frames_below(FRAME_LIMIT, lengths, to_top, random)
}

/// The same with another top.
pub fn frames_below(limit: u64, lengths: &[u64], to_top: bool, random: &mut Xorshift) -> Vec<u64> {
    let widest = 1 + random.below(u64::from(limit.ilog2()));
    // Each page needs a frame, and each run but the first a gap.
    let mut room = limit - lengths.iter().sum::<u64>() - (lengths.len() as u64 - 1);
    let mut frames = Vec::new();
    let mut next = 0;
    for (run, length) in lengths.iter().enumerate() {
        let last = run + 1 == lengths.len();
        let gap = match last && to_top {
            true => room,
            false => random.up_to_bits(widest).min(room),
        };
        room -= gap;
        next += gap + u64::from(run > 0);
        frames.extend(next..next + length);
        next += length;
    }
    frames
}
