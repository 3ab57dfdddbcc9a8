//! The three files of a case, and what damages them.

use super::groups::{in_groups, sheet_of, shortest};
use super::memory::{Memory, PAGE_BYTES};
use super::random::Xorshift;
use crate::second::sheet::MOST_RUNS;
use crate::second::walk::Files;

/// A sheet, an image and a pagefile.
pub struct CaseFiles {
    pub sheet: Vec<u8>,
    pub image: Vec<u8>,
    pub pagefile: Vec<u8>,
}

impl CaseFiles {
    /// The files of laid memory, which keeps none of its bytes.
    pub fn taken_from(memory: &mut Memory) -> Self {
        CaseFiles {
            sheet: sheet_of(&memory.sheet_fields()),
            image: std::mem::take(&mut memory.image),
            pagefile: std::mem::take(&mut memory.pagefile),
        }
    }

    pub fn lent(&self) -> Files<'_> {
        Files {
            sheet: &self.sheet,
            image: &self.image,
            pagefile: &self.pagefile,
        }
    }
}

/// Flips a few bits in entries of tables.
pub fn damage_tables(image: &mut [u8], entries: &[usize], random: &mut Xorshift) {
    for _ in 0..1 + random.below(3) {
        let entry = entries[random.below(entries.len() as u64) as usize];
        let bit = random.below(64) as usize;
        image[entry + bit / 8] ^= 1 << (bit % 8);
    }
}

/// Another sheet of the same length in pages: mostly accepted, with other frames or directory.
pub fn other_sheet(files: &mut CaseFiles, memory: &mut Memory, mut fields: Vec<u64>) {
    let last_run = fields.len() - 2;
    match memory.random.below(8) {
        0 => fields[1] = memory.frame_outside(),
        1 => fields[1] = memory.random.up_to_bits(36),
        2 => fields[3] += 1,
        3 => fields[last_run] += 1,
        4 => fields[last_run] = fields[last_run].saturating_sub(1),
        5 => fields[0] = memory.random.below(3),
        6 => fields[1] |= 1 << (36 + memory.random.below(6)),
        _ => fields[2] = other_run_count(&mut memory.random),
    }
    files.sheet = sheet_of(&fields);
}

/// A run count within the limits, at their edges or past them.
fn other_run_count(random: &mut Xorshift) -> u64 {
    match random.below(3) {
        0 => random.below(35),
        1 => 125 + random.below(6),
        _ => MOST_RUNS - 2 + random.below(6),
    }
}

/// Breaks the sheet's bytes or one of the two lengths, sometimes several at once.
pub fn damage_files(files: &mut CaseFiles, random: &mut Xorshift) {
    for _ in 0..1 + random.below(2) {
        let place = random.below(files.sheet.len() as u64 + 1) as usize;
        match random.below(8) {
            0 if place < files.sheet.len() => files.sheet[place] ^= 1 << random.below(8),
            1 => files.sheet.truncate(place),
            2 | 3 => files.sheet.push(random.next() as u8),
            4 => files.sheet = [&in_groups(1, 2)[..], &shortest(1)].concat(),
            5 => change_length(&mut files.image, random),
            _ => change_length(&mut files.pagefile, random),
        }
    }
}

/// By a byte, a page, anything between, or down to none or twice as long.
fn change_length(bytes: &mut Vec<u8>, random: &mut Xorshift) {
    let by = match random.below(8) {
        0 | 1 => 1,
        2 => PAGE_BYTES,
        3 => bytes.len(),
        _ => 1 + random.below(PAGE_BYTES as u64) as usize,
    };
    match random.below(2) {
        0 => bytes.truncate(bytes.len().saturating_sub(by)),
        _ => bytes.resize(bytes.len() + by, 0x5A),
    }
}
