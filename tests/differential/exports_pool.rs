//! The exported search for pool headers under test, called as the host calls it.

use crate::exports_map::Written;

extern "C" {
    fn glint_pool_headers(
        image: *const u8,
        image_length: usize,
        out: *mut u64,
        out_length: usize,
    ) -> Written;
}

pub fn pool_headers(image: &[u8], out: &mut [u64]) -> Written {
    // SAFETY: each pointer and length describe one slice, `out` lent alone.
    unsafe { glint_pool_headers(image.as_ptr(), image.len(), out.as_mut_ptr(), out.len()) }
}
