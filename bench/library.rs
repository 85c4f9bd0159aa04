//! The measured library, and the count of a job's chunks, an archive of its own: a safe function over each C function
//! that is measured.

use crate::hirunvel::{
    hirunvel_rebuild, hirunvel_scanner_feed, hirunvel_store_look, hirunvel_store_quote,
    hirunvel_store_take,
};
use crate::interface::{Answer, Fed, Head, Scanner};
use std::{array, ptr};

#[link(name = "chunk_count", kind = "static")]
unsafe extern "C" {
    fn hirunvel_chunk_count(window: u32, job: *const u8, job_len: usize) -> u64;
}

/// The number of chunks of a job; 0 if the window is refused.
pub fn chunk_count(window: u32, job: &[u8]) -> u64 {
    // SAFETY: the pointer and the length are those of a slice, which is only read.
    unsafe { hirunvel_chunk_count(window, job.as_ptr(), job.len()) }
}

/// Moves a scanner on over a part.
pub fn feed(scanner: &mut Scanner, part: &[u8], fed: &mut Fed) -> u32 {
    // SAFETY: the part is a slice, which is only read; `Scanner` and `Fed` are laid out as the header's arrays, and the
    // references to them are exclusive.
    unsafe {
        hirunvel_scanner_feed(
            ptr::from_mut(scanner).cast(),
            part.as_ptr(),
            part.len(),
            ptr::from_mut(fed).cast(),
        )
    }
}

/// Quotes a job.
pub fn quote(
    head: &Head,
    pool: &[u8],
    directory: &[u32],
    index: &[u32],
    recipe: &mut [u32],
    job: &[u8],
    answer: &mut Answer,
) -> u32 {
    // SAFETY: each pointer and its length are those of a slice, exclusive for the recipe; `Head` is laid out as the
    // header's array, and the references to the counts are exclusive.
    unsafe {
        hirunvel_store_quote(
            ptr::from_ref(head).cast(),
            pool.as_ptr(),
            pool.len(),
            directory.as_ptr(),
            directory.len(),
            index.as_ptr(),
            index.len(),
            recipe.as_mut_ptr(),
            recipe.len(),
            job.as_ptr(),
            job.len(),
            &mut answer.counts,
            array::from_mut(&mut answer.saving),
        )
    }
}

/// Takes a job.
pub fn take(
    head: &mut Head,
    pool: &mut [u8],
    directory: &mut [u32],
    index: &mut [u32],
    recipe: &mut [u32],
    job: &[u8],
    answer: &mut Answer,
) -> u32 {
    // SAFETY: each pointer and its length are those of a slice, exclusive where it is written; `Head` is laid out as the
    // header's array, and the references to it and to the counts are exclusive.
    unsafe {
        hirunvel_store_take(
            ptr::from_mut(head).cast(),
            pool.as_mut_ptr(),
            pool.len(),
            directory.as_mut_ptr(),
            directory.len(),
            index.as_mut_ptr(),
            index.len(),
            recipe.as_mut_ptr(),
            recipe.len(),
            job.as_ptr(),
            job.len(),
            &mut answer.counts,
            array::from_mut(&mut answer.saving),
        )
    }
}

/// Finds a chunk's stretch of the pool.
pub fn look(
    head: &Head,
    pool: &[u8],
    directory: &[u32],
    number: u32,
    stretch: &mut [u64; 2],
) -> u32 {
    // SAFETY: each pointer and its length are those of a slice, which is only read; `Head` is laid out as the header's
    // array, and the reference to the stretch is exclusive.
    unsafe {
        hirunvel_store_look(
            ptr::from_ref(head).cast(),
            pool.as_ptr(),
            pool.len(),
            directory.as_ptr(),
            directory.len(),
            number,
            stretch,
        )
    }
}

/// Writes the chunks that a recipe names to the output.
pub fn rebuild(
    head: &Head,
    pool: &[u8],
    directory: &[u32],
    recipe: &[u32],
    output: &mut [u8],
    written: &mut u64,
) -> u32 {
    // SAFETY: each pointer and its length are those of a slice, exclusive for the output; `Head` is laid out as the
    // header's array, and the reference to the number of bytes is exclusive.
    unsafe {
        hirunvel_rebuild(
            ptr::from_ref(head).cast(),
            pool.as_ptr(),
            pool.len(),
            directory.as_ptr(),
            directory.len(),
            recipe.as_ptr(),
            recipe.len(),
            output.as_mut_ptr(),
            output.len(),
            array::from_mut(written),
        )
    }
}
