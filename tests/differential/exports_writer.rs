//! The exported writing of sheets under test, called as the host calls it.

use crate::exports_map::Written;
use crate::second::sheet_writer::Given;

extern "C" {
    fn glint_write_sheet(
        directory: u64,
        mode: u64,
        place: u64,
        starts: *const u64,
        starts_length: usize,
        lengths: *const u64,
        lengths_length: usize,
        out: *mut u8,
        out_length: usize,
    ) -> Written;
}

pub fn write_sheet(given: &Given, out: &mut [u8]) -> Written {
    // SAFETY: each pointer and length describe one slice, `out` lent alone.
    unsafe {
        glint_write_sheet(
            given.directory_page,
            given.mode,
            given.place,
            given.starts.as_ptr(),
            given.starts.len(),
            given.lengths.as_ptr(),
            given.lengths.len(),
            out.as_mut_ptr(),
            out.len(),
        )
    }
}
