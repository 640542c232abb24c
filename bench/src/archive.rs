//! The function that the proved archive exports. Only this file has unsafe code.
#![allow(unsafe_code)]

mod exported {
    unsafe extern "C" {
        pub fn run(script: *const u8, script_len: usize, listing: *mut u8, listing_len: usize) -> u64;
    }
}

/// Plays a script: the bytes written, plus 2^32 times the number of the stop.
pub fn run(script: &[u8], listing: &mut [u8]) -> u64 {
    // SAFETY: both slices are valid for their lengths, and a `&mut` overlaps nothing else.
    unsafe { exported::run(script.as_ptr(), script.len(), listing.as_mut_ptr(), listing.len()) }
}
