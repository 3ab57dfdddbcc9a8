//! A case of a few pages, with page table entries put into it one by one.

pub const PAGE_BYTES: usize = 4096;

/// A sheet's directory page and runs, and the bytes of the two files.
pub struct Case {
    pub directory: u64,
    /// The mode, and the directory's place in its page in units of 32 bytes.
    pub mode: u64,
    pub place: u64,
    /// First frame and pages of each run, ascending.
    pub runs: Vec<(u64, u64)>,
    pub image: Vec<u8>,
    pub pagefile: Vec<u8>,
}

impl Case {
    pub fn new(directory: u64, runs: &[(u64, u64)], pagefile_pages: usize) -> Self {
        let pages: u64 = runs.iter().map(|(_, pages)| pages).sum();
        Case {
            directory,
            mode: 0,
            place: 0,
            runs: runs.to_vec(),
            image: vec![0; pages as usize * PAGE_BYTES],
            pagefile: vec![0; pagefile_pages * PAGE_BYTES],
        }
    }

    /// The sheet's bytes: edition, directory page, mode and place but for mode 0, run count, and gap and length of each run.
    pub fn sheet(&self) -> Vec<u8> {
        let mut fields = match self.mode {
            0 => vec![1, self.directory],
            mode => vec![2, self.directory, mode, self.place],
        };
        fields.push(self.runs.len() as u64);
        let mut end = 0;
        for (first, pages) in &self.runs {
            fields.extend([first - end, *pages]);
            end = first + pages;
        }
        sheet_of(&fields)
    }

    /// Puts an entry of the mode's bytes at a physical address.
    pub fn put(&mut self, physical: u64, entry: u64) {
        let bytes = match self.mode {
            1 => 4,
            _ => 8,
        };
        let mut start = 0;
        for (first, pages) in &self.runs {
            if (*first..first + pages).contains(&(physical >> 12)) {
                let offset = start + (physical - (first << 12)) as usize;
                self.image[offset..offset + bytes].copy_from_slice(&entry.to_le_bytes()[..bytes]);
                return;
            }
            start += *pages as usize * PAGE_BYTES;
        }
        panic!("0x{:X} is in no run", physical);
    }

    /// Puts an entry at an offset of the pagefile.
    pub fn put_in_pagefile(&mut self, offset: usize, entry: u64) {
        self.pagefile[offset..offset + 8].copy_from_slice(&entry.to_le_bytes());
    }
}

/// Fields in groups of seven bits, lowest group first.
pub fn sheet_of(fields: &[u64]) -> Vec<u8> {
    let mut bytes = Vec::new();
    for field in fields {
        let mut rest = *field;
        while rest >= 0x80 {
            bytes.push(rest as u8 | 0x80);
            rest >>= 7;
        }
        bytes.push(rest as u8);
    }
    bytes
}

/// The last-level entries that the tables below lead to.
pub const USER: u64 = 0xA0_0000;
pub const KERNEL: u64 = 0xFFFF_F8A0_02A0_0000;

/// The kernel address of the page of prototype entries.
pub const PROTOTYPES: u64 = KERNEL + 0x1000;

const TOP: u64 = 0x10_0000;
const SECOND: u64 = 0x10_1000;
const THIRD: u64 = 0x10_2000;
const LAST: u64 = 0x10_3000;
const PROTOTYPE_PAGE: u64 = 0x10_4000;

/// Four levels of tables at frames 0x100 to 0x103, which are image pages 0 to 3, a page of prototype entries at
/// frame 0x104, seven pages to be found, frames 0x105 to 0x10B, and a pagefile of three pages.
/// The same last-level table serves the pages from `USER` and from `KERNEL` on.
pub struct Tables {
    pub case: Case,
    next_last: u64,
    next_prototype: u64,
}

impl Tables {
    pub fn new() -> Self {
        let mut case = Case::new(0x100, &[(0x100, 12)], 3);
        for (physical, entry) in [
            (TOP, SECOND | 1),
            (TOP + 8 * 0x1F1, SECOND | 1),
            (SECOND, THIRD | 1),
            (SECOND + 8 * 0x80, THIRD | 1),
            (THIRD + 8 * 5, LAST | 1),
            (THIRD + 8 * 0x15, LAST | 1),
            (LAST + 8, PROTOTYPE_PAGE | 1),
        ] {
            case.put(physical, entry);
        }
        Tables {
            case,
            next_last: 2,
            next_prototype: 0,
        }
    }

    /// Puts the next last-level entry; its page's offset from `USER` and from `KERNEL`.
    pub fn last(&mut self, entry: u64) -> u64 {
        let index = self.next_last;
        assert!(index < 512, "the last-level table is full");
        self.next_last += 1;
        self.case.put(LAST + 8 * index, entry);
        index << 12
    }

    /// Puts the next prototype entry; its address.
    pub fn prototype(&mut self, entry: u64) -> u64 {
        let index = self.next_prototype;
        assert!(index < 512, "the page of prototype entries is full");
        self.next_prototype += 1;
        self.case.put(PROTOTYPE_PAGE + 8 * index, entry);
        PROTOTYPES + 8 * index
    }

    /// Puts a prototype entry and a last-level entry that names it; its page's offset.
    pub fn behind_prototype(&mut self, entry: u64) -> u64 {
        let address = self.prototype(entry);
        self.last(naming(address))
    }

    /// Puts a level one, two or three entry at an index.
    pub fn upper(&mut self, level: usize, index: u64, entry: u64) {
        let table = [TOP, SECOND, THIRD][level - 1];
        self.case.put(table + 8 * index, entry);
    }

    /// The entry for the table below a level one, two or three entry.
    pub fn table_below(level: usize) -> u64 {
        [SECOND, THIRD, LAST][level - 1] | 1
    }
}

/// A last-level entry that names a prototype entry's address.
pub const fn naming(address: u64) -> u64 {
    address << 16 | 0x400
}
