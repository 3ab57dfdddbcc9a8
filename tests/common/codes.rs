//! The numbers that several calls hand back, in lists from which each test makes its own.

// Each test uses its own part.
#![allow(dead_code)]

/// Every code that an extent can have: those of places, then refusals.
pub const EXTENT_CODES: &[u64] = &[1, 2, 3, 21, 22, 23, 24, 25, 26, 27, 28, 29, 31, 33, 34];

/// Where an address leads: the image, the pagefile, a page of zeros.
pub const PLACES: &[u64] = &[1, 2, 3];

/// The codes that are refusals in mode 0.
pub const PAGE_REFUSALS: &[u64] = match EXTENT_CODES {
    [1, 2, 3, refusals @ .., 34] => refusals,
    _ => panic!("places come first, the state that is not followed last"),
};

/// The codes that a map can have in mode 0.
pub const MODE_ZERO_CODES: &[u64] = match EXTENT_CODES {
    [codes @ .., 34] => codes,
    _ => panic!("the state that is not followed comes last"),
};

/// The codes that a map can have in modes 1 and 2.
pub const NARROW_CODES: [&[u64]; 2] = [&[1, 21, 23, 24, 34], &[1, 21, 23, 24, 33, 34]];

/// The refusal of a page in the compressed store.
pub const PAGE_IN_STORE: u64 = 31;

/// The refusal of a reserved bit in an entry above the last level.
pub const RESERVED_BIT_SET: u64 = 33;

/// The refusal of a last-level state that is not followed in modes 1 and 2.
pub const STATE_NOT_FOLLOWED: u64 = 34;

/// Refusals of a case as a whole.
pub const CASE_REFUSALS: &[u64] = &[10, 11, 12, 13, 14, 15, 16, 18];

/// The refusals of a number over 6 groups and of one not in its shortest form, which tell where it begins.
pub const BAD_FORMS: &[u64] = &[11, 18];

/// The refusal of an address that no page can have.
pub const NOT_CANONICAL: u64 = 20;

/// Every number that an address can have in mode 0.
pub fn address_numbers() -> Vec<u64> {
    [PLACES, CASE_REFUSALS, &[NOT_CANONICAL], PAGE_REFUSALS].concat()
}
