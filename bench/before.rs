//! The version before: commit 5589cbb. `make bench` looks for its two archives, in which
//! each name begins with `before_`, and measures without them unless both are there. To make them, check out that commit
//! in another folder, FOLDER, and then here:
//!
//!     make -C FOLDER target/staticlib/libhirunvel.a target/staticlib/libchunk_count.a
//!     mkdir -p target/bench/before
//!     for name in hirunvel chunk_count; do
//!         objcopy --prefix-symbols=before_ FOLDER/target/staticlib/lib$name.a target/bench/before/lib${name}_before.a
//!     done

use crate::interface::{Answer, Fed, Head, Scanner};
use std::{array, ptr};

/// Its name as a contestant.
pub const NAME: &str = "version before";

#[link(name = "hirunvel_before", kind = "static")]
unsafe extern "C" {
    fn before_hirunvel_scanner_feed(
        scanner: *mut [u32; 4],
        part: *const u8,
        part_len: usize,
        fed: *mut [u64; 4],
    ) -> u32;
    fn before_hirunvel_store_quote(
        head: *const [u32; 3],
        pool: *const u8,
        pool_len: usize,
        directory: *const u32,
        directory_len: usize,
        index: *const u32,
        index_len: usize,
        recipe: *mut u32,
        recipe_len: usize,
        job: *const u8,
        job_len: usize,
        counts: *mut [u64; 6],
        saving: *mut [i64; 1],
    ) -> u32;
    fn before_hirunvel_store_take(
        head: *mut [u32; 3],
        pool: *mut u8,
        pool_len: usize,
        directory: *mut u32,
        directory_len: usize,
        index: *mut u32,
        index_len: usize,
        recipe: *mut u32,
        recipe_len: usize,
        job: *const u8,
        job_len: usize,
        counts: *mut [u64; 6],
        saving: *mut [i64; 1],
    ) -> u32;
}

#[link(name = "chunk_count_before", kind = "static")]
unsafe extern "C" {
    fn before_hirunvel_chunk_count(window: u32, job: *const u8, job_len: usize) -> u64;
}

/// The number of chunks of a job; 0 if the window is refused.
pub fn chunk_count(window: u32, job: &[u8]) -> u64 {
    // SAFETY: as for the library's count.
    unsafe { before_hirunvel_chunk_count(window, job.as_ptr(), job.len()) }
}

/// Moves a scanner on over a part.
pub fn feed(scanner: &mut Scanner, part: &[u8], fed: &mut Fed) -> u32 {
    // SAFETY: as for the library's feed.
    unsafe {
        before_hirunvel_scanner_feed(
            ptr::from_mut(scanner).cast(),
            part.as_ptr(),
            part.len(),
            ptr::from_mut(fed).cast(),
        )
    }
}

/// Quotes a job.
pub fn quote(
    head: &Head,
    pool: &[u8],
    directory: &[u32],
    index: &[u32],
    recipe: &mut [u32],
    job: &[u8],
    answer: &mut Answer,
) -> u32 {
    // SAFETY: as for the library's quote.
    unsafe {
        before_hirunvel_store_quote(
            ptr::from_ref(head).cast(),
            pool.as_ptr(),
            pool.len(),
            directory.as_ptr(),
            directory.len(),
            index.as_ptr(),
            index.len(),
            recipe.as_mut_ptr(),
            recipe.len(),
            job.as_ptr(),
            job.len(),
            ptr::from_mut(&mut answer.counts).cast(),
            array::from_mut(&mut answer.saving),
        )
    }
}

/// Takes a job.
pub fn take(
    head: &mut Head,
    pool: &mut [u8],
    directory: &mut [u32],
    index: &mut [u32],
    recipe: &mut [u32],
    job: &[u8],
    answer: &mut Answer,
) -> u32 {
    // SAFETY: as for the library's take.
    unsafe {
        before_hirunvel_store_take(
            ptr::from_mut(head).cast(),
            pool.as_mut_ptr(),
            pool.len(),
            directory.as_mut_ptr(),
            directory.len(),
            index.as_mut_ptr(),
            index.len(),
            recipe.as_mut_ptr(),
            recipe.len(),
            job.as_ptr(),
            job.len(),
            ptr::from_mut(&mut answer.counts).cast(),
            array::from_mut(&mut answer.saving),
        )
    }
}
