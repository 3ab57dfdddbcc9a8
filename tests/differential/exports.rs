//! The exported functions under test, called as the host calls them.

/// Number, offset and entries read for one address.
#[repr(C)]
#[derive(Clone, Copy)]
pub struct Answer {
    pub number: u64,
    pub offset: u64,
    pub entries: u64,
}

/// What a read says; `zeros` is 1 if a byte came from a page of zeros.
#[repr(C)]
#[derive(Clone, Copy)]
pub struct Bytes {
    pub number: u64,
    pub length: u64,
    pub zeros: u64,
}

/// A part of the image (file 1) or of the pagefile (file 2); file 0 is the empty part.
#[repr(C)]
#[derive(Clone, Copy)]
pub struct Part {
    pub file: u64,
    pub offset: u64,
    pub length: u64,
}

extern "C" {
    fn glint_resolve(
        sheet: *const u8,
        sheet_length: usize,
        image: *const u8,
        image_length: usize,
        pagefile: *const u8,
        pagefile_length: usize,
        address: u64,
    ) -> Answer;

    fn glint_page(
        sheet: *const u8,
        sheet_length: usize,
        image: *const u8,
        image_length: usize,
        pagefile: *const u8,
        pagefile_length: usize,
        address: u64,
    ) -> Part;

    fn glint_read(
        sheet: *const u8,
        sheet_length: usize,
        image: *const u8,
        image_length: usize,
        pagefile: *const u8,
        pagefile_length: usize,
        address: u64,
        n: u64,
        out: *mut u8,
        out_length: usize,
    ) -> Bytes;

    fn test_page_copy(
        sheet: *const u8,
        sheet_length: usize,
        image: *const u8,
        image_length: usize,
        pagefile: *const u8,
        pagefile_length: usize,
        address: u64,
        out: *mut u8,
        out_length: usize,
    ) -> usize;
}

pub fn resolve(sheet: &[u8], image: &[u8], pagefile: &[u8], address: u64) -> Answer {
    // SAFETY: each pointer and length describe one slice, lent for the call.
    unsafe {
        glint_resolve(
            sheet.as_ptr(),
            sheet.len(),
            image.as_ptr(),
            image.len(),
            pagefile.as_ptr(),
            pagefile.len(),
            address,
        )
    }
}

pub fn page(sheet: &[u8], image: &[u8], pagefile: &[u8], address: u64) -> Part {
    // SAFETY: each pointer and length describe one slice, lent for the call.
    unsafe {
        glint_page(
            sheet.as_ptr(),
            sheet.len(),
            image.as_ptr(),
            image.len(),
            pagefile.as_ptr(),
            pagefile.len(),
            address,
        )
    }
}

pub fn read(
    sheet: &[u8],
    image: &[u8],
    pagefile: &[u8],
    address: u64,
    n: u64,
    out: &mut [u8],
) -> Bytes {
    // SAFETY: each pointer and length describe one slice, `out` lent alone.
    unsafe {
        glint_read(
            sheet.as_ptr(),
            sheet.len(),
            image.as_ptr(),
            image.len(),
            pagefile.as_ptr(),
            pagefile.len(),
            address,
            n,
            out.as_mut_ptr(),
            out.len(),
        )
    }
}

/// The bytes of an address's page over `out` as far as it goes, and how many they are.
pub fn page_copy(
    sheet: &[u8],
    image: &[u8],
    pagefile: &[u8],
    address: u64,
    out: &mut [u8],
) -> usize {
    // SAFETY: each pointer and length describe one slice, `out` lent alone.
    unsafe {
        test_page_copy(
            sheet.as_ptr(),
            sheet.len(),
            image.as_ptr(),
            image.len(),
            pagefile.as_ptr(),
            pagefile.len(),
            address,
            out.as_mut_ptr(),
            out.len(),
        )
    }
}
