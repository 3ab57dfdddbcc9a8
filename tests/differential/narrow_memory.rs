//! Memory with tables of the 32-bit profiles laid into it, so that each state is reached.

use crate::common::memory::{
    frames_below, sheet_fields, Memory, FRAME_LIMIT, LARGE, PAGE_BYTES, PROTOTYPE, TRANSITION,
    VALID,
};
use crate::common::random::Xorshift;
use crate::second::sheet::{LAST_PLACE, PLAIN};

/// Every address is below.
pub const ADDRESS_LIMIT: u64 = 1 << 32;
/// Entries of 4 bytes name frames below.
const PLAIN_FRAMES: u64 = 1 << 20;

const PAGE: u64 = PAGE_BYTES as u64;
/// The first page, those before and at the end, and one at the sign bit.
const EDGE_PAGES: [u64; 4] = [0, ADDRESS_LIMIT - 2 * PAGE, ADDRESS_LIMIT - PAGE, 1 << 31];

/// One level of tables.
pub struct Level {
    /// The lowest address bit of the index.
    pub low: u32,
    pub entries: u64,
    pub bytes: usize,
}

const PLAIN_LEVELS: &[Level] = &[
    Level {
        low: 22,
        entries: 1024,
        bytes: 4,
    },
    Level {
        low: 12,
        entries: 1024,
        bytes: 4,
    },
];
const PAE_LEVELS: &[Level] = &[
    Level {
        low: 30,
        entries: 4,
        bytes: 8,
    },
    Level {
        low: 21,
        entries: 512,
        bytes: 8,
    },
    Level {
        low: 12,
        entries: 512,
        bytes: 8,
    },
];

/// The levels of a mode, from the top on; the last but one has the large pages.
pub fn levels(mode: u64) -> &'static [Level] {
    match mode {
        PLAIN => PLAIN_LEVELS,
        _ => PAE_LEVELS,
    }
}

/// Physical memory of one mode, and the tables laid so far.
pub struct NarrowMemory {
    pub memory: Memory,
    pub mode: u64,
    /// The directory's place in its page, in units of 32 bytes.
    pub place: u64,
    /// The image offset of each entry put into a table.
    pub put: Vec<usize>,
    /// Few upper parts of addresses, so that pages share tables.
    regions: [u64; 2],
    last_page: u64,
}

impl NarrowMemory {
    /// Memory of at most so many runs.
    pub fn new(mode: u64, most_runs: u64, mut random: Xorshift) -> Self {
        let place = match (mode, random.below(4)) {
            (PLAIN, _) => 0,
            (_, 0) => 0,
            (_, 1) => LAST_PLACE,
            _ => random.below(LAST_PLACE + 1),
        };
        let frames = scattered_frames(mode, most_runs, &mut random);
        let regions = [random.below(ADDRESS_LIMIT), random.below(ADDRESS_LIMIT)];
        let mut narrow = NarrowMemory {
            memory: Memory::over(frames, random),
            mode,
            place,
            put: Vec::new(),
            regions,
            last_page: 0,
        };
        narrow.dress_directory();
        narrow
    }

    /// Edition 2, directory page, mode, place, run count, then gap and length of each run.
    pub fn sheet_fields(&self) -> Vec<u64> {
        let memory = &self.memory;
        let mut fields = sheet_fields(memory.frames[memory.directory], &memory.frames);
        fields[0] = 2;
        fields.splice(2..2, [self.mode, self.place]);
        fields
    }

    /// Fills the page around a PAE directory with entries that lead elsewhere, or leaves it empty.
    fn dress_directory(&mut self) {
        if self.mode == PLAIN || self.memory.random.below(2) == 0 {
            return;
        }
        let start = self.memory.directory * PAGE_BYTES;
        for offset in (start..start + PAGE_BYTES).step_by(8) {
            let page = self.memory.any_page();
            let entry = self.memory.table(self.memory.frames[page]);
            self.memory.image[offset..offset + 8].copy_from_slice(&entry.to_le_bytes());
        }
        let top = start + 32 * self.place as usize;
        self.memory.image[top..top + 32].fill(0);
    }

    /// Lays a page that is found or refused at any level.
    pub fn lay(&mut self) -> u64 {
        let upper_levels = levels(self.mode).len() as u64 - 1;
        match self.memory.random.below(17) {
            0..=2 => {
                let level = self.memory.random.below(upper_levels) as usize;
                let page = self.fresh_page(level);
                let entry = self.odd_upper_entry(level);
                self.put_entry(page, level, entry);
                page
            }
            3..=7 => self.lay_large(),
            turn => {
                let page = self.fresh_page(upper_levels as usize);
                let entry = match turn {
                    8..=11 => self.odd_entry(),
                    _ => self.found_entry(),
                };
                self.put_entry(page, upper_levels as usize, entry);
                page
            }
        }
    }

    /// Lays neighbour pages, most of them found, often up to the end of the addresses.
    pub fn lay_row(&mut self) -> Vec<u64> {
        let last_level = levels(self.mode).len() - 1;
        let first = match self.memory.random.below(2) {
            0 => ADDRESS_LIMIT - 3 * PAGE,
            _ => self.fresh_page(last_level).min(ADDRESS_LIMIT - 3 * PAGE),
        };
        let pages: Vec<u64> = (0..3).map(|step| first + step * PAGE).collect();
        for page in &pages {
            let entry = match self.memory.random.below(6) {
                0 => self.odd_entry(),
                _ => self.found_entry(),
            };
            self.put_entry(*page, last_level, entry);
        }
        pages
    }

    /// A large page with a frame at an end of a run in it, or beside it; some with bits that refuse it.
    fn lay_large(&mut self) -> u64 {
        let level = levels(self.mode).len() - 2;
        let low_bits = (1 << levels(self.mode)[level].low) - 1;
        let frame = match self.memory.random.below(2) {
            0 => self.frame_beside_run(),
            _ => self.frame_in_run(),
        };
        let page = (self.fresh_page(level) & !low_bits) | (frame << 12 & low_bits);
        let refused = match self.memory.random.below(3) {
            0 => self.refusing_bits(),
            _ => 0,
        };
        let entry = match self.mode {
            // Bit 12 says nothing here.
            PLAIN => (frame << 12 & !low_bits) | self.memory.noise(0x1F7E) | LARGE | VALID,
            _ => self.memory.large(frame, 3),
        };
        self.put_entry(page, level, entry | refused);
        page
    }

    /// What refuses a valid entry of a large page: bits from 13 up to its base, bits 48-51 in mode 2, or both.
    fn refusing_bits(&mut self) -> u64 {
        let reserved = match self.mode {
            PLAIN => 9,
            _ => 8,
        };
        let reserved = match self.memory.random.below(3) {
            0 => 1,
            1 => 1 << (reserved - 1),
            _ => 1 + self.memory.random.below((1 << reserved) - 1),
        };
        match (self.mode, self.memory.random.below(7)) {
            (PLAIN, _) | (_, 0..=3) => reserved << 13,
            (_, 4 | 5) => self.memory.wide(),
            _ => reserved << 13 | self.memory.wide(),
        }
    }

    /// An entry above the last level that is not valid, refused for its bits, or names a table in no run.
    fn odd_upper_entry(&mut self, level: usize) -> u64 {
        let table = self.take_table();
        let in_run = self.memory.frames[table];
        let outside = self.frame_outside();
        let any = [in_run, outside][self.memory.random.below(2) as usize];
        let entry = match self.memory.random.below(12) {
            0 => 0,
            1 => self.memory.random.next() & !VALID,
            2 | 3 => self.memory.transition_in(in_run),
            4 => self.memory.table(outside),
            // In mode 2 the bit is reserved in a top entry; elsewhere it makes a large page.
            5..=8 if level == 0 => self.memory.table(any) | LARGE,
            9 if level == 0 => self.memory.table(any) | LARGE | self.memory.wide(),
            _ => self.memory.table(any) | self.memory.wide(),
        };
        self.cut(entry)
    }

    /// An entry that names a page of the image.
    fn found_entry(&mut self) -> u64 {
        let frame = self.frame_in_run();
        let page = self.memory.frames.binary_search(&frame);
        if self.memory.random.below(4) == 0 && !self.is_table(frame) {
            let start = page.expect("the frame is in a run") * PAGE_BYTES;
            self.memory.image[start..start + PAGE_BYTES].fill(0);
        }
        let entry = match self.memory.random.below(2) {
            0 => self.memory.transition_in(frame),
            _ => self.memory.valid_in(frame),
        };
        self.cut(entry)
    }

    fn is_table(&self, frame: u64) -> bool {
        let memory = &self.memory;
        let in_table = |offset: &usize| memory.frames[offset / PAGE_BYTES] == frame;
        memory.frames[memory.directory] == frame || self.put.iter().any(in_table)
    }

    /// A last-level entry that is refused, or at the edge of that.
    fn odd_entry(&mut self) -> u64 {
        let outside = self.frame_outside();
        let in_run = self.frame_in_run();
        let any = [in_run, outside][self.memory.random.below(2) as usize];
        let entry = match self.memory.random.below(11) {
            0 => self.memory.valid_in(outside),
            1 => self.memory.transition_in(outside),
            2 | 3 => self.memory.valid_in(any) | self.memory.wide(),
            4 => 0,
            5 => self.memory.random.next() & !(VALID | TRANSITION),
            6 => self.memory.transition_in(in_run) | PROTOTYPE,
            7 => (self.memory.valid_in(in_run) | PROTOTYPE) & !(VALID | TRANSITION),
            8 => {
                let page = 1 + self.memory.random.below(8);
                self.memory.software(page)
            }
            9 => self.memory.valid_in(in_run) & !(VALID | TRANSITION),
            _ => self.memory.random.next(),
        };
        self.cut(entry)
    }

    /// As much of an entry as the mode has.
    fn cut(&self, entry: u64) -> u64 {
        match self.mode {
            PLAIN => u64::from(entry as u32),
            _ => entry,
        }
    }

    fn frame_limit(&self) -> u64 {
        match self.mode {
            PLAIN => PLAIN_FRAMES,
            _ => FRAME_LIMIT,
        }
    }

    /// A frame of a page that is not in use yet, while there are any; one that an entry can name.
    fn frame_in_run(&mut self) -> u64 {
        loop {
            let page = self.memory.take_page();
            let frame = self.memory.frames[page];
            if frame < self.frame_limit() {
                return frame;
            }
        }
    }

    pub fn frame_outside(&mut self) -> u64 {
        loop {
            let frame = self.memory.frame_outside();
            if frame < self.frame_limit() {
                return frame;
            }
        }
    }

    /// The frame right before or right behind a run.
    fn frame_beside_run(&mut self) -> u64 {
        for _ in 0..16 {
            let frame = self.frame_in_run();
            let next = match self.memory.random.below(2) {
                0 => frame + 1,
                _ => frame.saturating_sub(1),
            };
            if self.memory.frames.binary_search(&next).is_err() && next < self.frame_limit() {
                return next;
            }
        }
        self.frame_outside()
    }

    /// A page that shares its tables down to a level, and is anywhere from there on; often at an edge.
    pub fn fresh_page(&mut self, level: usize) -> u64 {
        let random = &mut self.memory.random;
        let anywhere = random.below(ADDRESS_LIMIT);
        let region = self.regions[random.below(2) as usize];
        let shared = match level {
            0 => 0,
            _ => !((1 << levels(self.mode)[level - 1].low) - 1),
        };
        let page = match random.below(12) {
            0 | 1 => EDGE_PAGES[random.below(4) as usize],
            2..=4 => self.last_page + PAGE,
            _ => (region & shared) | (anywhere & !shared),
        };
        self.last_page = page % ADDRESS_LIMIT & !(PAGE - 1);
        self.last_page
    }

    /// Puts the entry for a page at a level, with the tables above it where they are missing.
    fn put_entry(&mut self, page: u64, level: usize, entry: u64) {
        let mut table = self.memory.directory;
        for upper in 0..level {
            let offset = self.entry_offset(table, page, upper);
            let named = self.memory.table_in(self.entry_at(offset));
            table = named.unwrap_or_else(|| {
                let taken = self.take_table();
                let entry = self.memory.table(self.memory.frames[taken]);
                self.put_at(offset, entry);
                taken
            });
        }
        self.put_at(self.entry_offset(table, page, level), entry);
    }

    fn take_table(&mut self) -> usize {
        loop {
            let page = self.memory.take_table();
            if self.memory.frames[page] < self.frame_limit() {
                return page;
            }
        }
    }

    fn entry_offset(&self, table: usize, page: u64, level: usize) -> usize {
        let Level {
            low,
            entries,
            bytes,
        } = levels(self.mode)[level];
        let start = match level {
            0 => 32 * self.place as usize,
            _ => 0,
        };
        table * PAGE_BYTES + start + bytes * (page >> low & (entries - 1)) as usize
    }

    fn entry_at(&self, offset: usize) -> u64 {
        entry_at(&self.memory.image, offset, self.mode)
    }

    fn put_at(&mut self, offset: usize, entry: u64) {
        let bytes = levels(self.mode)[0].bytes;
        self.memory.image[offset..offset + bytes].copy_from_slice(&entry.to_le_bytes()[..bytes]);
        self.put.push(offset);
    }
}

/// The entry of a mode at an image offset.
pub fn entry_at(image: &[u8], offset: usize, mode: u64) -> u64 {
    let bytes = levels(mode)[0].bytes;
    let mut entry = [0; 8];
    entry[..bytes].copy_from_slice(&image[offset..offset + bytes]);
    u64::from_le_bytes(entry)
}

/// The frames of 6 pages or more, ascending; in mode 1 they may go on behind the last frame that an entry can name.
fn scattered_frames(mode: u64, most_runs: u64, random: &mut Xorshift) -> Vec<u64> {
    let runs = 1 + random.below(most_runs);
    let mut lengths: Vec<u64> = (0..runs).map(|_| 1 + random.below(5)).collect();
    lengths[0] += 5;
    let (limit, to_top) = match (mode, random.below(8)) {
        (PLAIN, 0) => (PLAIN_FRAMES + 2, true),
        (PLAIN, turn) => (PLAIN_FRAMES, turn < 3),
        (_, turn) => (FRAME_LIMIT, turn < 2),
    };
    frames_below(limit, &lengths, to_top, random)
}
