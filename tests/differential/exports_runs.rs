//! The exported calls on a case's sheet under test, called as the host calls them.

use crate::exports_map::Written;

/// What the call on a case's runs says.
#[repr(C)]
#[derive(Clone, Copy)]
pub struct CaseRead {
    pub number: u64,
    pub directory: u64,
    pub mode: u64,
    pub place: u64,
    pub length: u64,
}

extern "C" {
    fn glint_case(
        sheet: *const u8,
        sheet_length: usize,
        image_length: u64,
        pagefile_length: u64,
        out: *mut u64,
        out_length: usize,
    ) -> CaseRead;

    fn glint_image_length(sheet: *const u8, sheet_length: usize) -> Written;
}

pub fn case_runs(
    sheet: &[u8],
    image_length: u64,
    pagefile_length: u64,
    out: &mut [u64],
) -> CaseRead {
    // SAFETY: each pointer and length describe one slice, `out` lent alone.
    unsafe {
        glint_case(
            sheet.as_ptr(),
            sheet.len(),
            image_length,
            pagefile_length,
            out.as_mut_ptr(),
            out.len(),
        )
    }
}

pub fn image_length(sheet: &[u8]) -> Written {
    // SAFETY: the pointer and the length describe one slice, lent for the call.
    unsafe { glint_image_length(sheet.as_ptr(), sheet.len()) }
}
