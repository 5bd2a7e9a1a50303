//! The two functions under test. Linked, they are the library's; built with
//! `--cfg standalone` they are the stand-in's, and no library is needed.

#[cfg(not(standalone))]
mod library {
    extern "C" {
        pub fn melyonva_plan(
            book: *const u8,
            book_len: usize,
            entries: *mut u8,
            entries_len: usize,
            prices: *mut u8,
            prices_len: usize,
        ) -> u64;
        pub fn melyonva_check(
            book: *const u8,
            book_len: usize,
            entries: *const u8,
            entries_len: usize,
            prices: *const u8,
            prices_len: usize,
        ) -> u64;
    }
}

#[cfg(not(standalone))]
pub fn plan(book: &[u8], entries: &mut [u8], prices: &mut [u8]) -> u64 {
    // Each list is passed with its own length, and none overlaps another.
    unsafe {
        library::melyonva_plan(
            book.as_ptr(),
            book.len(),
            entries.as_mut_ptr(),
            entries.len(),
            prices.as_mut_ptr(),
            prices.len(),
        )
    }
}

#[cfg(not(standalone))]
pub fn check(book: &[u8], entries: &[u8], prices: &[u8]) -> u64 {
    unsafe {
        library::melyonva_check(
            book.as_ptr(),
            book.len(),
            entries.as_ptr(),
            entries.len(),
            prices.as_ptr(),
            prices.len(),
        )
    }
}

#[cfg(standalone)]
pub use crate::standin::{check, plan};
