//! The images in which two searches for pool headers are compared.

use crate::common::random::Xorshift;
use crate::second::pool::{TAG_BITS, UNIT_BYTES};
use crate::second::walk::PAGE_BYTES;

const PAGE: usize = PAGE_BYTES as usize;
const UNIT: usize = UNIT_BYTES as usize;
/// How many units a page has.
const PAGE_UNITS: u64 = PAGE_BYTES / UNIT_BYTES;
/// The largest size that a header can have.
pub const LARGEST_SIZE: u64 = 511;
/// What the byte-wide layout of Windows 2000 counts sizes in, and how many a page has.
const CHUNK: usize = 32;
const PAGE_CHUNKS: u64 = 128;
/// Where a header has the top bits of its tag's bytes, of which the last is free.
const TAG_TOP_BITS: [u64; 4] = [39, 47, 55, 63];

/// An image, and how many places there are for its headers.
pub struct Case {
    pub image: Vec<u8>,
    /// Where headers were laid, some of which may be changed or cut off.
    pub laid: Vec<usize>,
    pub room: Room,
}

pub enum Room {
    None,
    OneShort,
    /// So many hundredths.
    Part(usize),
    Exact,
    /// So many more.
    More(usize),
}

impl Room {
    pub fn places(&self, headers: usize) -> usize {
        match self {
            Room::None => 0,
            Room::OneShort => headers.saturating_sub(1),
            Room::Part(hundredths) => headers * hundredths / 100,
            Room::Exact => headers,
            Room::More(more) => headers + more,
        }
    }
}

/// Hands so many cases to `take`, the same ones in the same order for the same seed.
pub fn each_case(seed: u64, how_many: u64, take: &mut dyn FnMut(&Case)) {
    // A state of 0 would stay 0.
    let mut random = Xorshift {
        state: seed.wrapping_add(1).wrapping_mul(0x9E37_79B9_7F4A_7C15) | 1,
    };
    for _ in 0..how_many {
        let mut pools = Pools {
            image: Vec::new(),
            laid: Vec::new(),
            random,
        };
        for _ in 0..pools.random.below(5) {
            pools.add_page();
        }
        for _ in 0..pools.random.below(5) {
            pools.miss();
        }
        if pools.random.below(8) == 0 {
            pools.change_length();
        }
        let room = match pools.random.below(8) {
            0 => Room::None,
            1 | 2 => Room::OneShort,
            3 => Room::Part(pools.random.below(100) as usize),
            4 => Room::More(1),
            5 => Room::More(pools.random.below(20) as usize),
            _ => Room::Exact,
        };
        take(&Case {
            image: pools.image,
            laid: pools.laid,
            room,
        });
        random = pools.random;
    }
}

/// An image in the making.
struct Pools {
    image: Vec<u8>,
    laid: Vec<usize>,
    random: Xorshift,
}

impl Pools {
    fn add_page(&mut self) {
        let page = self.image.len();
        self.image.resize(page + PAGE, 0);
        match self.random.below(16) {
            0 => {}
            1 => self.fill_with_noise(page),
            2 => self.lay_blocks(page, vec![1; PAGE_UNITS as usize]),
            3 | 4 => {
                let first = [1, 2, 256, 510, LARGEST_SIZE][self.random.below(5) as usize];
                self.fill(page);
                self.lay_blocks(page, vec![first, PAGE_UNITS - first]);
            }
            5 | 6 => {
                let unaligned = 1 + self.random.below(7) as usize;
                let sizes = self.sizes(PAGE_UNITS - 1);
                self.fill(page);
                self.lay_blocks(page + unaligned, sizes);
            }
            7 => self.lay_byte_wide(page),
            _ => {
                let sizes = self.sizes(PAGE_UNITS);
                self.fill(page);
                self.lay_blocks(page, sizes);
            }
        }
    }

    /// What the blocks have behind their headers: zeros, noise, or headers of one size.
    fn fill(&mut self, page: usize) {
        match self.random.below(4) {
            0 => self.fill_with_noise(page),
            1 => {
                let size = 1 + self.random.below(4);
                for at in (page..page + PAGE).step_by(UNIT) {
                    self.put_header(at, size, size);
                }
            }
            _ => {}
        }
    }

    fn fill_with_noise(&mut self, page: usize) {
        for at in (page..page + PAGE).step_by(UNIT) {
            let word = self.random.next();
            self.image[at..at + UNIT].copy_from_slice(&word.to_le_bytes());
        }
    }

    /// Sizes of blocks that have so many units together.
    fn sizes(&mut self, units: u64) -> Vec<u64> {
        let longest = [2, 8, 40, 200, LARGEST_SIZE][self.random.below(5) as usize];
        let mut sizes = Vec::new();
        let mut left = units;
        while left > 0 {
            let size = (1 + self.random.below(longest)).min(left);
            sizes.push(size);
            left -= size;
        }
        sizes
    }

    /// Chained blocks from an offset on; sometimes the last ones are left out.
    fn lay_blocks(&mut self, start: usize, mut sizes: Vec<u64>) {
        if self.random.below(4) == 0 {
            sizes.truncate(1 + self.random.below(sizes.len() as u64) as usize);
        }
        let (mut at, mut previous) = (start, 0);
        for size in sizes {
            self.put_header(at, previous, size);
            self.laid.push(at);
            at += UNIT * size as usize;
            previous = size;
        }
    }

    /// A page as Windows 2000 has it: PreviousSize, PoolIndex, PoolType and BlockSize a byte each.
    fn lay_byte_wide(&mut self, page: usize) {
        let (mut place, mut previous) = (0, 0);
        while place < PAGE_CHUNKS {
            let size = (1 + self.random.below(16)).min(PAGE_CHUNKS - place);
            let at = page + CHUNK * place as usize;
            let pool_type = self.random.below(9);
            let fields = previous | pool_type << 16 | size << 24 | u64::from(self.tag()) << 32;
            self.image[at..at + UNIT].copy_from_slice(&fields.to_le_bytes());
            place += size;
            previous = size;
        }
    }

    /// A header with any fields beside its sizes.
    fn put_header(&mut self, at: usize, previous_size: u64, block_size: u64) {
        let pool_index = match self.random.below(2) {
            0 => 0,
            _ => self.random.below(128),
        };
        let pool_type = match self.random.below(4) {
            0 => 0,
            1 => 1 + self.random.below(8),
            2 => 33 + self.random.below(7),
            _ => self.random.below(128),
        };
        let words = previous_size | pool_index << 9 | block_size << 16 | pool_type << 25;
        let header = words | u64::from(self.tag()) << 32;
        self.image[at..at + UNIT].copy_from_slice(&header.to_le_bytes());
    }

    /// A tag without the three bits.
    fn tag(&mut self) -> u32 {
        match self.random.below(4) {
            0 => 0,
            1 => u32::from_le_bytes(*b"Pro\xE3"),
            2 => u32::from_le_bytes(*b"Proc"),
            _ => self.random.next() as u32 & !TAG_BITS,
        }
    }

    /// Changes a header that was laid, or a neighbour of it, by little.
    fn miss(&mut self) {
        if self.laid.is_empty() {
            return;
        }
        let which = self.random.below(self.laid.len() as u64) as usize;
        let at = self.laid[which];
        let page = at - at % PAGE;
        let bit = self.random.below(64);
        match self.random.below(16) {
            0..=2 => self.flip(at, TAG_TOP_BITS[bit as usize % 4]),
            3 => self.miss_size(at),
            4 => self.miss_previous(at),
            5 => self.miss_size(at.saturating_sub(UNIT * self.previous_size(at) as usize)),
            6 => self.miss_previous(at + UNIT * self.block_size(at) as usize),
            7 => self.set_size(page, 0),
            8 | 9 => self.end_about_page(at),
            10 | 11 => self.reach_before_page(at),
            12 => self.set_previous(at, 0),
            13 => self.miss_previous(page),
            14 => self.free(which),
            _ => self.flip(at, bit),
        }
    }

    fn flip(&mut self, at: usize, bit: u64) {
        self.image[at + bit as usize / 8] ^= 1 << (bit % 8);
    }

    fn word(&self, at: usize) -> u16 {
        u16::from_le_bytes([self.image[at], self.image[at + 1]])
    }

    fn set_word(&mut self, at: usize, word: u16) {
        self.image[at..at + 2].copy_from_slice(&word.to_le_bytes());
    }

    fn previous_size(&self, at: usize) -> u64 {
        u64::from(self.word(at) & 0x1FF)
    }

    fn block_size(&self, at: usize) -> u64 {
        u64::from(self.word(at + 2) & 0x1FF)
    }

    fn set_previous(&mut self, at: usize, size: u64) {
        self.set_word(at, self.word(at) & !0x1FF | size as u16 & 0x1FF);
    }

    fn set_size(&mut self, at: usize, size: u64) {
        self.set_word(at + 2, self.word(at + 2) & !0x1FF | size as u16 & 0x1FF);
    }

    fn miss_size(&mut self, at: usize) {
        if at + UNIT <= self.image.len() {
            let size = self.near(self.block_size(at));
            self.set_size(at, size);
        }
    }

    fn miss_previous(&mut self, at: usize) {
        if at + UNIT <= self.image.len() {
            let size = self.near(self.previous_size(at));
            self.set_previous(at, size);
        }
    }

    /// A size that is off by one unit or by one bit.
    fn near(&mut self, size: u64) -> u64 {
        match self.random.below(4) {
            0 => size + 1,
            1 => size.wrapping_sub(1),
            _ => size ^ 1 << self.random.below(9),
        }
    }

    /// Lets a block end at the page's end or past it.
    fn end_about_page(&mut self, at: usize) {
        let to_end = PAGE_UNITS - (at % PAGE / UNIT) as u64;
        let past = [0, 1, 1, self.random.below(PAGE_UNITS)][self.random.below(4) as usize];
        if to_end + past <= LARGEST_SIZE {
            self.set_size(at, to_end + past);
        }
    }

    /// Lets a header point back to a block of the page before, which has that size.
    fn reach_before_page(&mut self, at: usize) {
        let to_start = (at % PAGE / UNIT) as u64;
        let past = [1, 1 + self.random.below(PAGE_UNITS)][self.random.below(2) as usize];
        let reach = to_start + past;
        if reach > LARGEST_SIZE {
            return;
        }
        self.set_previous(at, reach);
        if let Some(before) = at.checked_sub(UNIT * reach as usize) {
            self.set_size(before, reach);
        }
    }

    /// Frees some blocks that follow each other: the first one takes them all, the others keep their headers.
    fn free(&mut self, first: usize) {
        let at = self.laid[first];
        let last = first + 1 + self.random.below(4) as usize;
        let end = match self.laid.get(last) {
            Some(end) if end / PAGE == at / PAGE => *end,
            _ => return,
        };
        let size = ((end - at) / UNIT) as u64;
        self.set_word(at + 2, size as u16);
        if self.random.below(2) == 0 {
            self.set_previous(end, size);
        }
    }

    /// Makes the image longer or shorter by a part of a page.
    fn change_length(&mut self) {
        let by = match self.random.below(4) {
            0 => 1,
            1 => PAGE / 2,
            2 => UNIT * (1 + self.random.below(PAGE_UNITS - 1) as usize),
            _ => 1 + self.random.below(PAGE as u64 - 1) as usize,
        };
        match self.random.below(2) {
            0 => self.image.truncate(self.image.len().saturating_sub(by)),
            _ => self.image.resize(self.image.len() + by, 0),
        }
    }
}
