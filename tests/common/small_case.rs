//! A case of seven pages for what the paper states.

use super::case_files::CaseFiles;
use super::groups::sheet_of;
use super::memory::PAGE_BYTES;

/// Tables for the pages from 0xB10000 on, with the last level in image page 3.
const TABLES: [(usize, u64); 3] = [(0x0000, 0x2001), (0x1000, 0x3001), (0x2028, 0x4001)];

/// Frames 1 to 7 in one run, the tables above, and further words at their image offsets.
pub fn small_case(words: &[(usize, u64)]) -> CaseFiles {
    let mut image = vec![0; 7 * PAGE_BYTES];
    for (offset, word) in TABLES.iter().chain(words) {
        image[*offset..offset + 8].copy_from_slice(&word.to_le_bytes());
    }
    CaseFiles {
        sheet: sheet_of(&[1, 1, 1, 1, 7]),
        image,
        pagefile: Vec::new(),
    }
}
