//! Maps that no map call wrote: made up, at the edge of a rule, or broken.

use crate::common::codes::EXTENT_CODES;
use crate::common::groups::{in_groups, sheet_of, shortest};
use crate::common::memory::canonical;
use crate::common::random::Xorshift;
use crate::second::codes::has_page;
use crate::second::map::{Extent, Map, HALF_PAGES, MOST_PAGES};
use crate::second::number::NUMBER_LIMIT;

/// A map and an address to look up in it.
pub struct OtherMap {
    pub bytes: Vec<u8>,
    pub address: u64,
}

/// Numbers beside the codes of extents, and numbers that are no code for their size.
const BESIDE_CODES: [u64; 14] = [
    0,
    4,
    5,
    19,
    20,
    30,
    32,
    35,
    37,
    64,
    127,
    128,
    NUMBER_LIMIT - 1,
    NUMBER_LIMIT,
];

/// Written maps with more extents than this are left alone.
const MOST_EXTENTS: usize = 64;

/// No code, codes with and without a page, and the edges of groups.
const CHOSEN_BYTES: [u8; 10] = [0x00, 0x01, 0x02, 0x03, 0x14, 0x15, 0x16, 0x1F, 0x7F, 0x80];

/// The longest string of chosen bytes.
const MOST_CHOSEN: u32 = 5;

/// Hands over all strings of chosen bytes, alone and behind the start of a map.
pub fn each_short_map(take: &mut dyn FnMut(&[u8])) {
    let starts: [&[u8]; 4] = [&[], &[1, 2], &[1, 0, 2], &[1, 0, 3]];
    for start in starts {
        for length in 0..=MOST_CHOSEN {
            for which in 0..CHOSEN_BYTES.len().pow(length) {
                take(&chosen_bytes(start, length, which));
            }
        }
    }
}

/// The digits of `which`, in the base of how many bytes there are, select them.
fn chosen_bytes(start: &[u8], length: u32, mut which: usize) -> Vec<u8> {
    let mut map = start.to_vec();
    for _ in 0..length {
        map.push(CHOSEN_BYTES[which % CHOSEN_BYTES.len()]);
        which /= CHOSEN_BYTES.len();
    }
    map
}

/// A made-up or a written map with at most a few faults put into it.
pub fn other_map(written: Option<&Map>, random: &mut Xorshift) -> OtherMap {
    let mut sketch = match written {
        Some(map) if map.extents.len() <= MOST_EXTENTS && random.below(2) == 0 => Sketch::of(map),
        _ => Sketch::made_up(random),
    };
    let (rules, form, bytes) = match random.below(8) {
        0 => (0, false, false),
        1..=3 => (1, false, false),
        4 => (0, true, false),
        5 => (0, false, true),
        6 => (1, true, false),
        _ => (2, random.below(2) == 0, random.below(2) == 0),
    };
    for _ in 0..rules {
        sketch.break_rule(random);
    }
    let fields = sketch.fields();
    let mut map = match form {
        true => with_broken_form(&fields, random),
        false => sheet_of(&fields),
    };
    if bytes {
        break_bytes(&mut map, random);
    }
    OtherMap {
        bytes: map,
        address: sketch.address(random),
    }
}

/// The fields of a map, whether or not they keep the rules.
struct Sketch {
    edition: u64,
    start_page: u64,
    pages: u64,
    extents: Vec<Extent>,
}

impl Sketch {
    fn of(map: &Map) -> Self {
        Sketch {
            edition: 1,
            start_page: map.start_page,
            pages: map.pages,
            extents: map.extents.clone(),
        }
    }

    /// A map that keeps the rules, often just so.
    fn made_up(random: &mut Xorshift) -> Self {
        let pages = match random.below(8) {
            0 => MOST_PAGES,
            1 => 1 + random.up_to_bits(20),
            2 => 1,
            _ => 1 + random.below(20),
        };
        let mut extents: Vec<Extent> = Vec::new();
        let mut left = pages;
        while left > 0 {
            let length = match random.below(4) {
                0 => left,
                1 => 1,
                _ => 1 + random.below(left),
            };
            extents.push(next_extent(extents.last(), length, random));
            left -= length;
        }
        Sketch {
            edition: 1,
            start_page: start_page_for(pages, random),
            pages,
            extents,
        }
    }

    fn fields(&self) -> Vec<u64> {
        let mut fields = vec![self.edition, self.start_page, self.pages];
        for extent in &self.extents {
            fields.extend([extent.code, extent.length]);
            if has_page(extent.code) {
                fields.push(extent.first_page);
            }
        }
        fields
    }

    /// An address in an extent's first or last page, beside the range, or anywhere.
    fn address(&self, random: &mut Xorshift) -> u64 {
        let before = random.below(self.extents.len() as u64 + 1) as usize;
        let lengths = self.extents[..before].iter().map(|extent| extent.length);
        let page = match random.below(8) {
            0 => self.start_page.wrapping_sub(1),
            1 => self.start_page + self.pages,
            2 => self.start_page + random.below(self.pages.max(1)),
            3 => self.start_page + lengths.sum::<u64>().saturating_sub(1),
            _ => self.start_page + lengths.sum::<u64>(),
        };
        let address = canonical(page << 12) | random.below(1 << 12);
        match random.below(16) {
            0 => address ^ 1 << (47 + random.below(17)),
            1 => canonical(address ^ 1 << 47),
            _ => address,
        }
    }

    /// Breaks one rule or comes close to it.
    fn break_rule(&mut self, random: &mut Xorshift) {
        if self.extents.is_empty() {
            return;
        }
        let which = random.below(self.extents.len() as u64) as usize;
        match random.below(16) {
            0 => self.edition = pick(&[0, 2, 3, NUMBER_LIMIT - 1], random),
            1 => self.pages = other_count(self.pages, random),
            2 | 3 => {
                let past = random.below(3);
                self.start_page = start_page_for(self.pages.saturating_sub(past), random);
            }
            4 | 5 => self.extents[which].code = no_code(random),
            6 => self.extents[which].code = pick(EXTENT_CODES, random),
            7 => self.extents[which].length = 0,
            8 => self.extents[which].length = other_count(self.extents[which].length, random),
            9 | 10 => self.page_at_top(which, random),
            11 | 12 => self.split(which, random),
            13 => drop(self.extents.pop()),
            14 => self.extents.push(self.extents[which]),
            _ => self.follow_page(which, random),
        }
    }

    /// A first page with which the extent ends around page 2^36.
    fn page_at_top(&mut self, which: usize, random: &mut Xorshift) {
        let extent = &mut self.extents[which];
        extent.code = 1 + random.below(2);
        let first_page = NUMBER_LIMIT - extent.length.min(NUMBER_LIMIT);
        extent.first_page = match random.below(4) {
            0 => first_page,
            1 => NUMBER_LIMIT - 1,
            _ => first_page + 1,
        };
    }

    /// Two extents in the place of one, the second going on where the first ended, or nearly so.
    fn split(&mut self, which: usize, random: &mut Xorshift) {
        let extent = &mut self.extents[which];
        let first_length = (extent.length / 2).max(1);
        let mut second = *extent;
        second.length = extent.length.saturating_sub(first_length).max(1);
        second.first_page = match random.below(4) {
            0 => extent.first_page + first_length + 1,
            1 => extent.first_page,
            _ => extent.first_page + first_length,
        };
        extent.length = first_length;
        self.extents.insert(which + 1, second);
    }

    /// The next page for the extent behind this one, in the same file or in the other.
    fn follow_page(&mut self, which: usize, random: &mut Xorshift) {
        let Extent {
            code,
            length,
            first_page,
        } = self.extents[which];
        if let (Some(next), true) = (self.extents.get_mut(which + 1), has_page(code)) {
            next.first_page = first_page + length;
            next.code = 1 + random.below(2);
        }
    }
}

fn pick(numbers: &[u64], random: &mut Xorshift) -> u64 {
    numbers[random.below(numbers.len() as u64) as usize]
}

fn no_code(random: &mut Xorshift) -> u64 {
    loop {
        let number = pick(&BESIDE_CODES, random);
        if !EXTENT_CODES.contains(&number) {
            return number;
        }
    }
}

/// Another length or page count, at the edge of a limit.
fn other_count(count: u64, random: &mut Xorshift) -> u64 {
    let few = [
        0,
        1,
        count + 1,
        count.saturating_sub(1),
        MOST_PAGES,
        MOST_PAGES + 1,
        NUMBER_LIMIT - 1,
        NUMBER_LIMIT,
    ];
    match random.below(2) {
        0 => count + 1,
        _ => pick(&few, random),
    }
}

/// The first pages of ranges that end at the edges of the halves, or lie anywhere in one.
fn start_page_for(pages: u64, random: &mut Xorshift) -> u64 {
    let pages = pages.min(HALF_PAGES);
    match random.below(8) {
        0 => 0,
        1 => HALF_PAGES - pages,
        2 => HALF_PAGES,
        3 => 2 * HALF_PAGES - pages,
        4 => HALF_PAGES + random.up_to_bits(35).min(HALF_PAGES - pages),
        _ => random.up_to_bits(35).min(HALF_PAGES - pages),
    }
}

/// An extent that does not go on where the one before it ended.
fn next_extent(before: Option<&Extent>, length: u64, random: &mut Xorshift) -> Extent {
    loop {
        let code = match random.below(2) {
            0 => 1 + random.below(2),
            _ => pick(EXTENT_CODES, random),
        };
        let extent = match has_page(code) {
            true => Extent {
                code,
                length,
                first_page: first_page_for(before, length, random),
            },
            false => Extent {
                code,
                length,
                first_page: 0,
            },
        };
        let end = |before: &Extent| before.first_page + before.length;
        let goes_on = before.filter(|before| before.code == code);
        if goes_on.map_or(true, |before| {
            has_page(code) && end(before) != extent.first_page
        }) {
            return extent;
        }
    }
}

/// A first page near that of the extent before, at the top, or anywhere.
fn first_page_for(before: Option<&Extent>, length: u64, random: &mut Xorshift) -> u64 {
    let (first, end) = before.map_or((0, 0), |before| {
        (before.first_page, before.first_page + before.length)
    });
    let page = match random.below(8) {
        0 => NUMBER_LIMIT,
        1 => first,
        2 | 3 => end,
        4 => end + 1,
        5 => end.saturating_sub(1),
        _ => random.up_to_bits(36),
    };
    page.min(NUMBER_LIMIT - length)
}

/// The fields with one of them in a bad form, or cut short within it.
fn with_broken_form(fields: &[u64], random: &mut Xorshift) -> Vec<u8> {
    let which = random.below(fields.len() as u64) as usize;
    let value = fields[which];
    let enough = shortest(value).len() as u32;
    let byte = pick(&[0x80, 0xFF, 0x81], random) as u8;
    let form = match random.below(12) {
        0 | 1 => in_groups(value, enough + 1),
        2 => in_groups(value, 6.max(enough + 1)),
        3 => in_groups(value, 7),
        4 => in_groups(0, 2 + random.below(5) as u32),
        5 => shortest(NUMBER_LIMIT),
        6 => shortest(NUMBER_LIMIT + random.up_to_bits(41)),
        7 => shortest(NUMBER_LIMIT - 1),
        8 | 9 => vec![byte; 5 + random.below(2) as usize],
        10 => vec![byte; random.below(6) as usize],
        _ => shortest(value),
    };
    let mut bytes = sheet_of(&fields[..which]);
    bytes.extend(form);
    if random.below(2) == 0 {
        bytes.extend(sheet_of(&fields[which + 1..]));
    }
    bytes
}

/// Flips a bit, cuts, lengthens, drops or doubles.
fn break_bytes(bytes: &mut Vec<u8>, random: &mut Xorshift) {
    if bytes.is_empty() {
        return;
    }
    let place = random.below(bytes.len() as u64) as usize;
    match random.below(8) {
        0..=2 => bytes[place] ^= 1 << random.below(8),
        3 => bytes.truncate(place),
        4 | 5 => bytes.push(random.next() as u8),
        6 => drop(bytes.remove(place)),
        _ => bytes.insert(place, bytes[place]),
    }
}
