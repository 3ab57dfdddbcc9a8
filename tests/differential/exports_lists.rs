//! The exported processor-block search and process list under test, called as the host calls them.

use crate::exports::Answer;
use crate::exports_map::Written;

extern "C" {
    fn glint_processor_block(
        sheet: *const u8,
        sheet_length: usize,
        image: *const u8,
        image_length: usize,
        pagefile: *const u8,
        pagefile_length: usize,
        from: u64,
    ) -> Answer;

    fn glint_process_list(
        sheet: *const u8,
        sheet_length: usize,
        image: *const u8,
        image_length: usize,
        pagefile: *const u8,
        pagefile_length: usize,
        head: u64,
        out: *mut u64,
        out_length: usize,
    ) -> Written;
}

pub fn processor_block(sheet: &[u8], image: &[u8], pagefile: &[u8], from: u64) -> Answer {
    // SAFETY: each pointer and length describe one slice, lent for the call.
    unsafe {
        glint_processor_block(
            sheet.as_ptr(),
            sheet.len(),
            image.as_ptr(),
            image.len(),
            pagefile.as_ptr(),
            pagefile.len(),
            from,
        )
    }
}

pub fn process_list(
    sheet: &[u8],
    image: &[u8],
    pagefile: &[u8],
    head: u64,
    out: &mut [u64],
) -> Written {
    // SAFETY: each pointer and length describe one slice, `out` lent alone.
    unsafe {
        glint_process_list(
            sheet.as_ptr(),
            sheet.len(),
            image.as_ptr(),
            image.len(),
            pagefile.as_ptr(),
            pagefile.len(),
            head,
            out.as_mut_ptr(),
            out.len(),
        )
    }
}
