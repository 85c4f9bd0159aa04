//! The store: quoting, taking, looking and rebuilding.

use super::chunks::Chunk;
use super::*;
use crate::memory::Store;
use std::collections::HashMap;

/// Opens a store.
pub fn open(window: u32, head: &mut [u32]) -> u32 {
    if window_accepted(window) {
        head.copy_from_slice(&[window, 0, 0]);
        ACCEPTED
    } else {
        head.fill(0);
        WINDOW
    }
}

/// Quotes a job. `counts` gets the recipe's length, the new bytes, the repeated bytes and the three
/// numbers of cuts.
pub fn quote(
    store: &Store,
    recipe: &mut [u32],
    job: &[u8],
    counts: &mut [u64],
    saving: &mut [i64],
) -> u32 {
    match answer(store, recipe, job, counts, saving) {
        Ok(_) => ACCEPTED,
        Err(refusal) => refusal,
    }
}

/// Takes a job: the answer of a quote and, where nothing is refused, the new chunks in the store.
pub fn take(
    store: &mut Store,
    recipe: &mut [u32],
    job: &[u8],
    counts: &mut [u64],
    saving: &mut [i64],
) -> u32 {
    match answer(store, recipe, job, counts, saving) {
        Ok(new) => {
            new.iter().for_each(|chunk| add(store, chunk));
            ACCEPTED
        }
        Err(refusal) => refusal,
    }
}

/// Fills in the recipe, the counts and the saving. Gives the new chunks in order, or the refusal.
fn answer<'a>(
    store: &Store,
    recipe: &mut [u32],
    job: &'a [u8],
    counts: &mut [u64],
    saving: &mut [i64],
) -> Result<Vec<&'a [u8]>, u32> {
    counts.fill(0);
    saving.fill(0);
    let refusal = job_ground(store, recipe, job);
    if refusal != ACCEPTED {
        return Err(refusal);
    }
    let chunks = chunks::division(store.head[0], job);
    let walk = walk(store, recipe.len(), &chunks);
    recipe[..walk.numbers.len()].copy_from_slice(&walk.numbers);
    if walk.refusal != ACCEPTED {
        return Err(walk.refusal);
    }
    let (job_length, new_bytes) = (job.len() as u64, walk.new_bytes);
    let places = walk.numbers.len() as u64;
    counts[..3].copy_from_slice(&[places, new_bytes, job_length - new_bytes]);
    counts[3..].copy_from_slice(&cuts_by_value(&chunks));
    let charged = new_bytes + PACKET_CHARGE * packets(&walk.numbers);
    saving[0] = job_length as i64 - charged as i64;
    Ok(walk.new)
}

/// What the chunks of a job come to, one after another: their numbers, the new ones in order with
/// their bytes, and the refusal at which this ends.
struct Walk<'a> {
    numbers: Vec<u32>,
    new: Vec<&'a [u8]>,
    new_bytes: u64,
    refusal: u32,
}

/// Goes over the chunks of a job, against those that the store holds and the new ones so far, with
/// this many places in the recipe.
fn walk<'a>(store: &Store, places: usize, chunks: &[Chunk<'a>]) -> Walk<'a> {
    let stored = lowest_numbers(store);
    let mut added: HashMap<&[u8], u32> = HashMap::new();
    let mut walk = Walk {
        numbers: Vec::new(),
        new: Vec::new(),
        new_bytes: 0,
        refusal: ACCEPTED,
    };
    for chunk in chunks.iter().map(|chunk| chunk.bytes) {
        if walk.numbers.len() == places {
            walk.refusal = RECIPE_FULL;
            break;
        }
        if let Some(&number) = stored.get(chunk).or(added.get(chunk)) {
            walk.numbers.push(number);
            continue;
        }
        walk.refusal = room_ground(store, &walk, chunk);
        if walk.refusal != ACCEPTED {
            break;
        }
        let next = store.chunks() + walk.new.len() as u32;
        added.insert(chunk, next);
        walk.numbers.push(next);
        walk.new.push(chunk);
        walk.new_bytes += chunk.len() as u64;
    }
    walk
}

/// The chunks that a store holds, each with its lowest number.
fn lowest_numbers(store: &Store) -> HashMap<&[u8], u32> {
    (0..store.chunks())
        .rev()
        .map(|number| (store.chunk(number as usize), number))
        .collect()
}

/// The ground on which a new chunk is refused after those before it.
fn room_ground(store: &Store, before: &Walk, chunk: &[u8]) -> u32 {
    let free = store.pool.len() as u64 - u64::from(store.head[2]);
    if store.chunks() as usize + before.new.len() == store.directory.len() / 2 {
        DIRECTORY_FULL
    } else if before.new_bytes + chunk.len() as u64 > free {
        POOL_FULL
    } else {
        ACCEPTED
    }
}

/// How many cuts end these chunks, by the value of the maximum point: below 20, from 20 to 7E, above 7E.
fn cuts_by_value(chunks: &[Chunk]) -> [u64; 3] {
    let mut cuts = [0; 3];
    for peak in chunks.iter().filter_map(|chunk| chunk.peak) {
        let class = match peak.value {
            ..0x20 => 0,
            0x20..=0x7E => 1,
            0x7F.. => 2,
        };
        cuts[class] += 1;
    }
    cuts
}

/// The packets in which the numbers of a recipe travel.
fn packets(recipe: &[u32]) -> u64 {
    recipe.chunks(PACKET_BYTES / NUMBER_BYTES).count() as u64
}

/// Adds a chunk with the next number and enters it in the index. There must be room for it.
fn add(store: &mut Store, chunk: &[u8]) {
    let (number, filled) = (store.chunks() as usize, store.head[2] as usize);
    store.pool[filled..filled + chunk.len()].copy_from_slice(chunk);
    store.directory[2 * number] = filled as u32;
    store.directory[2 * number + 1] = chunk.len() as u32;
    store.head[1] += 1;
    store.head[2] += chunk.len() as u32;
    index::enter(store, number);
}

/// Finds a chunk's stretch of the pool.
pub fn look(store: &Store, number: u32, stretch: &mut [u64]) -> u32 {
    stretch.fill(0);
    let refusal = reading_ground(store, &[], &[number]);
    if refusal == ACCEPTED {
        let entry = 2 * number as usize;
        stretch[0] = u64::from(store.directory[entry]);
        stretch[1] = u64::from(store.directory[entry + 1]);
    }
    refusal
}

/// Writes the chunks that a recipe names to the output. `written` gets the number of bytes.
pub fn rebuild(store: &Store, recipe: &[u32], output: &mut [u8], written: &mut [u64]) -> u32 {
    written.fill(0);
    let refusal = reading_ground(store, recipe, recipe);
    if refusal != ACCEPTED {
        return refusal;
    }
    let chunks = recipe.iter().map(|&number| store.chunk(number as usize));
    let length: u64 = chunks.clone().map(|chunk| chunk.len() as u64).sum();
    if (output.len() as u64) < length {
        return OUTPUT_SHORT;
    }
    let mut at = 0;
    for chunk in chunks {
        output[at..at + chunk.len()].copy_from_slice(chunk);
        at += chunk.len();
    }
    written[0] = length;
    ACCEPTED
}

/// The ground, among those tested before the first chunk, on which a quote or a take is refused.
fn job_ground(store: &Store, recipe: &[u32], job: &[u8]) -> u32 {
    if !window_accepted(store.head[0]) {
        WINDOW
    } else if job.is_empty() || job.len() > JOB_LIMIT {
        JOB_LENGTH
    } else if over_limit(store, recipe) {
        MEMORY_LIMIT
    } else if !head_fits(store) {
        HEAD
    } else if store.index.len() != index::length(store.directory.len()) {
        INDEX_LENGTH
    } else if !index::meets_each_once(store) {
        INDEX
    } else {
        ACCEPTED
    }
}

/// The ground on which a call that names chunks is refused: it is lent this recipe and names these
/// numbers.
fn reading_ground(store: &Store, recipe: &[u32], numbers: &[u32]) -> u32 {
    if !window_accepted(store.head[0]) {
        WINDOW
    } else if over_limit(store, recipe) {
        MEMORY_LIMIT
    } else if !head_fits(store) {
        HEAD
    } else if numbers.iter().any(|&number| number >= store.chunks()) {
        CHUNK_NUMBER
    } else {
        ACCEPTED
    }
}

/// Tells whether lent memory is over its limit, or the directory's length is odd.
fn over_limit(store: &Store, recipe: &[u32]) -> bool {
    store.pool.len() > POOL_LIMIT
        || store.directory.len() > DIRECTORY_LIMIT
        || store.directory.len() % 2 == 1
        || recipe.len() > RECIPE_LIMIT
}

/// Tells whether the head fits pool and directory.
pub fn head_fits(store: &Store) -> bool {
    let chunks = store.chunks() as usize;
    if chunks > store.directory.len() / 2 {
        return false;
    }
    let mut end = 0;
    for entry in store.directory[..2 * chunks].chunks_exact(2) {
        let (offset, length) = (u64::from(entry[0]), u64::from(entry[1]));
        if offset != end || length < 1 || longest_chunk(store.head[0]) < length {
            return false;
        }
        end += length;
    }
    end == u64::from(store.head[2]) && end <= store.pool.len() as u64
}
