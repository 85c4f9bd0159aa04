//! Rebuilding: the chunks that a recipe names, one after another.

use super::store::{head_refused, memory_refused, window_refused};
use crate::interface::{
    Head, ACCEPTED, CHUNK_NUMBER, HEAD, MEMORY_LIMIT, OUTPUT_SHORT, RECIPE_LIMIT, WINDOW,
};

/// Writes the chunks that a recipe names to the output.
#[inline(never)]
pub fn rebuild(
    head: &Head,
    pool: &[u8],
    directory: &[u32],
    recipe: &[u32],
    output: &mut [u8],
    written: &mut u64,
) -> u32 {
    *written = 0;
    if window_refused(head.window) {
        return WINDOW;
    }
    if memory_refused(pool, directory) || recipe.len() > RECIPE_LIMIT {
        return MEMORY_LIMIT;
    }
    if head_refused(head, pool, directory) {
        return HEAD;
    }
    if recipe.iter().any(|number| *number >= head.chunks) {
        return CHUNK_NUMBER;
    }
    let entries = directory.as_chunks::<2>().0;
    let lengths = recipe
        .iter()
        .map(|number| u64::from(entries[*number as usize][1]));
    let length = lengths.sum::<u64>();
    if length > output.len() as u64 {
        return OUTPUT_SHORT;
    }
    let mut left = output;
    for number in recipe {
        let [offset, length] = entries[*number as usize].map(|n| n as usize);
        let (place, after) = left.split_at_mut(length);
        place.copy_from_slice(&pool[offset..][..length]);
        left = after;
    }
    *written = length;
    ACCEPTED
}
