//! The exported time call under test, called as the host calls it.

/// Whole seconds, and the ticks left over.
#[repr(C)]
#[derive(Clone, Copy)]
pub struct Time {
    pub seconds: f64,
    pub ticks: f64,
}

/// What the time call says.
#[repr(C)]
#[derive(Clone, Copy)]
pub struct TimeAnswer {
    pub number: u64,
    pub time: Time,
}

extern "C" {
    fn glint_read_time(
        sheet: *const u8,
        sheet_length: usize,
        image: *const u8,
        image_length: usize,
        pagefile: *const u8,
        pagefile_length: usize,
        address: u64,
    ) -> TimeAnswer;
}

pub fn read_time(sheet: &[u8], image: &[u8], pagefile: &[u8], address: u64) -> TimeAnswer {
    // SAFETY: each pointer and length describe one slice, lent for the call.
    unsafe {
        glint_read_time(
            sheet.as_ptr(),
            sheet.len(),
            image.as_ptr(),
            image.len(),
            pagefile.as_ptr(),
            pagefile.len(),
            address,
        )
    }
}
