//! The numbers with which an address or an extent is answered.

use super::number::Refusal;

/// The page is in the image.
pub const IMAGE: u64 = 1;
/// The page is in the pagefile.
pub const PAGEFILE: u64 = 2;
/// The page is one of zeros.
pub const ZEROS: u64 = 3;

/// The address is not canonical, or past the top.
pub const NOT_CANONICAL: Refusal = 20;

/// Makes the refusals of a page, and the list of them.
macro_rules! page_refusals {
    ($($(#[$about:meta])* $name:ident = $number:literal;)*) => {
        $($(#[$about])* pub const $name: Refusal = $number;)*
        const PAGE_REFUSALS: &[Refusal] = &[$($name),*];
    };
}

page_refusals! {
    /// A first or second level entry is not valid.
    TABLE_NOT_VALID = 21;
    /// A region record is needed.
    REGION_NEEDED = 22;
    /// The frame is in no run.
    FRAME_IN_NO_RUN = 23;
    /// The frame is too wide.
    FRAME_TOO_WIDE = 24;
    /// The page is backed by a file.
    BACKED_BY_FILE = 25;
    /// The page is in another pagefile.
    OTHER_PAGEFILE = 26;
    /// The page is past the pagefile's end.
    PAST_PAGEFILE = 27;
    /// A fourth prototype entry would be needed.
    FOURTH_PROTOTYPE = 28;
    /// The prototype address is not a multiple of 8.
    UNALIGNED_PROTOTYPE = 29;
    /// The page is in the compressed store.
    PAGE_IN_STORE = 31;
    /// A reserved bit of an upper entry is set.
    RESERVED_BIT_SET = 33;
    /// A last-level entry of a 32-bit profile has a state that is not followed.
    STATE_NOT_FOLLOWED = 34;
}

/// Whether the code has a first page.
pub fn has_page(code: u64) -> bool {
    code == IMAGE || code == PAGEFILE
}

/// Whether the code is a page's refusal.
pub fn refuses(code: u64) -> bool {
    PAGE_REFUSALS
        .iter()
        .any(|refusal| u64::from(*refusal) == code)
}

/// Whether an extent can have the code.
pub fn is_code(code: u64) -> bool {
    has_page(code) || code == ZEROS || refuses(code)
}
