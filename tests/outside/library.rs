//! The library under test: a safe function over each of its C functions. Memory that the library may
//! only read is taken as mutable too, so that a write to it would be seen.

use crate::hirunvel::*;
use crate::memory::Store;

/// The elements as an array of the declared length.
fn array<T, const N: usize>(elements: &mut [T]) -> &mut [T; N] {
    elements.try_into().expect("as many elements as declared")
}

/// Opens a scanner.
pub fn scanner_open(window: u32, scanner: &mut [u32]) -> u32 {
    // SAFETY: nothing else refers to the array.
    unsafe { hirunvel_scanner_open(window, array(scanner)) }
}

/// Feeds a part of a job to a scanner.
pub fn scanner_feed(scanner: &mut [u32], part: &mut [u8], fed: &mut [u64]) -> u32 {
    // SAFETY: the pointer and the length are those of a slice, and no two of the three overlap.
    unsafe { hirunvel_scanner_feed(array(scanner), part.as_mut_ptr(), part.len(), array(fed)) }
}

/// Finishes a job.
pub fn scanner_finish(scanner: &mut [u32], count: &mut [u64]) -> u32 {
    let [count] = array(count);
    // SAFETY: the scanner and the count do not overlap.
    unsafe { hirunvel_scanner_finish(array(scanner), count) }
}

/// Opens a store.
pub fn store_open(window: u32, head: &mut [u32]) -> u32 {
    // SAFETY: nothing else refers to the array.
    unsafe { hirunvel_store_open(window, array(head)) }
}

/// Quotes a job.
pub fn quote(
    store: &mut Store,
    recipe: &mut [u32],
    job: &mut [u8],
    counts: &mut [u64],
    saving: &mut [i64],
) -> u32 {
    // SAFETY: each pointer and its length are those of a slice, and no two arrays or slices overlap.
    unsafe {
        hirunvel_store_quote(
            array(&mut store.head),
            store.pool.as_mut_ptr(),
            store.pool.len(),
            store.directory.as_mut_ptr(),
            store.directory.len(),
            store.index.as_mut_ptr(),
            store.index.len(),
            recipe.as_mut_ptr(),
            recipe.len(),
            job.as_mut_ptr(),
            job.len(),
            array(counts),
            array(saving),
        )
    }
}

/// Takes a job into a store.
pub fn take(
    store: &mut Store,
    recipe: &mut [u32],
    job: &mut [u8],
    counts: &mut [u64],
    saving: &mut [i64],
) -> u32 {
    // SAFETY: each pointer and its length are those of a slice, and no two arrays or slices overlap.
    unsafe {
        hirunvel_store_take(
            array(&mut store.head),
            store.pool.as_mut_ptr(),
            store.pool.len(),
            store.directory.as_mut_ptr(),
            store.directory.len(),
            store.index.as_mut_ptr(),
            store.index.len(),
            recipe.as_mut_ptr(),
            recipe.len(),
            job.as_mut_ptr(),
            job.len(),
            array(counts),
            array(saving),
        )
    }
}

/// Finds a chunk's stretch of the pool.
pub fn look(store: &mut Store, number: u32, stretch: &mut [u64]) -> u32 {
    // SAFETY: each pointer and its length are those of a slice, and no two arrays or slices overlap.
    unsafe {
        hirunvel_store_look(
            array(&mut store.head),
            store.pool.as_mut_ptr(),
            store.pool.len(),
            store.directory.as_mut_ptr(),
            store.directory.len(),
            number,
            array(stretch),
        )
    }
}

/// Writes the chunks that a recipe names to the output.
pub fn rebuild(
    store: &mut Store,
    recipe: &mut [u32],
    output: &mut [u8],
    written: &mut [u64],
) -> u32 {
    // SAFETY: each pointer and its length are those of a slice, and no two arrays or slices overlap.
    unsafe {
        hirunvel_rebuild(
            array(&mut store.head),
            store.pool.as_mut_ptr(),
            store.pool.len(),
            store.directory.as_mut_ptr(),
            store.directory.len(),
            recipe.as_mut_ptr(),
            recipe.len(),
            output.as_mut_ptr(),
            output.len(),
            array(written),
        )
    }
}
