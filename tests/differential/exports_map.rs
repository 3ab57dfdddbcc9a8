//! The exported map and lookup calls under test, called as the host calls them.

/// What a call that fills a buffer says.
#[repr(C)]
#[derive(Clone, Copy)]
pub struct Written {
    pub number: u64,
    pub length: u64,
}

/// What a lookup says.
#[repr(C)]
#[derive(Clone, Copy)]
pub struct Found {
    pub number: u64,
    pub offset: u64,
}

extern "C" {
    fn glint_map(
        sheet: *const u8,
        sheet_length: usize,
        image: *const u8,
        image_length: usize,
        pagefile: *const u8,
        pagefile_length: usize,
        start: u64,
        pages: u64,
        out: *mut u8,
        out_length: usize,
    ) -> Written;

    fn glint_lookup(map: *const u8, map_length: usize, address: u64) -> Found;
}

pub fn map(
    sheet: &[u8],
    image: &[u8],
    pagefile: &[u8],
    start: u64,
    pages: u64,
    out: &mut [u8],
) -> Written {
    // SAFETY: each pointer and length describe one slice, `out` lent alone.
    unsafe {
        glint_map(
            sheet.as_ptr(),
            sheet.len(),
            image.as_ptr(),
            image.len(),
            pagefile.as_ptr(),
            pagefile.len(),
            start,
            pages,
            out.as_mut_ptr(),
            out.len(),
        )
    }
}

pub fn lookup(map: &[u8], address: u64) -> Found {
    // SAFETY: the pointer and length describe one slice, lent for the call.
    unsafe { glint_lookup(map.as_ptr(), map.len(), address) }
}
