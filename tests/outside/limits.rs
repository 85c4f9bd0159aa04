//! Jobs, pools, directories, recipes and chunks at their limits and one past them.

use crate::call::{compare, Call};
use crate::hirunvel::CHUNK_LIMIT;
use crate::jobs;
use crate::memory::{Lent, Store};
use crate::model::*;
use crate::pair::Pair;
use crate::random::Random;
use crate::scanner_calls::Feed;
use crate::shrink::shrink;
use crate::store_calls::{Look, Rebuild, Take};
use crate::tally::Tally;

/// Checks them all.
pub fn run(random: &mut Random, tally: &mut Tally) -> Result<(), String> {
    longest_jobs(random, tally)?;
    longest_recipes(random, tally)?;
    least_saving(tally)?;
    longest_pools(random, tally)?;
    longest_directories(random, tally)?;
    longest_chains(tally)?;
    longest_chunks(tally)?;
    largest_sums(tally)
}

/// Compares a call and checks that it ends with this refusal. Gives the call as it was left.
fn expect<C: Call>(call: &C, refusal: u32, tally: &mut Tally) -> Result<C, String> {
    match compare(call, tally) {
        Ok((found, after)) if found == refusal => Ok(after),
        Ok((found, _)) => Err(format!("Refusal {found} came and not {refusal}: {call:#?}")),
        Err(fault) => Err(shrink(call, fault)),
    }
}

/// Quotes and takes a job with a recipe memory of some numbers. Gives the take.
fn take(
    store: &Store,
    places: usize,
    job: &[u8],
    refusal: u32,
    tally: &mut Tally,
) -> Result<Take, String> {
    Pair::new(store, &Lent::new(&used(places)), job).expect(refusal, tally)
}

/// Looks at a chunk.
fn look(store: &Store, number: u32, refusal: u32, tally: &mut Tally) -> Result<Look, String> {
    expect(&Look::new(store, number), refusal, tally)
}

/// Rebuilds a job with an output of some bytes.
fn rebuild(
    store: &Store,
    recipe: &[u32],
    output: usize,
    refusal: u32,
    tally: &mut Tally,
) -> Result<Rebuild, String> {
    expect(
        &Rebuild::new(store, recipe, &Lent::new(&used(output))),
        refusal,
        tally,
    )
}

/// Memory that holds something else than zeros.
fn used<T: Clone + From<u8>>(length: usize) -> Vec<T> {
    vec![T::from(0x77); length]
}

/// Jobs of 16,777,216 bytes, new and repeated, and of one byte more.
fn longest_jobs(random: &mut Random, tally: &mut Tally) -> Result<(), String> {
    let mut job = jobs::long_rise(random, WINDOW_LIMIT as usize, JOB_LIMIT);
    for byte in job.iter_mut().step_by(1_000) {
        *byte = random.byte();
    }
    let fresh = Store::new([WINDOW_LIMIT, 0, 0], &used(JOB_LIMIT), &used(60_000));
    let after = take(&fresh, 30_000, &job, ACCEPTED, tally)?;
    let (store, recipe) = (&after.store, after.written_recipe());
    rebuild(store, recipe, JOB_LIMIT, ACCEPTED, tally)?;
    rebuild(store, recipe, JOB_LIMIT - 1, OUTPUT_SHORT, tally)?;
    take(store, 30_000, &job, ACCEPTED, tally)?;
    let mut full = store.clone();
    full.pool = Lent::new(&store.pool[..store.head[2] as usize]);
    job[JOB_LIMIT / 2] ^= 0x80;
    take(&full, 30_000, &job, POOL_FULL, tally)?;
    job.push(0);
    take(store, 30_000, &job, JOB_LENGTH, tally)?;
    expect(&Feed::new(&[WINDOW_LIMIT, 0, 0, 0], &job), ACCEPTED, tally)?;
    Ok(())
}

/// Jobs of 65,535 and 65,536 chunks with the smallest and with the largest window, and recipes of as
/// many numbers.
fn longest_recipes(random: &mut Random, tally: &mut Tally) -> Result<(), String> {
    for window in [1, WINDOW_LIMIT] {
        let chunk = window as usize + 1;
        let fresh = Store::new([window, 0, 0], &used(2_000), &used(10));
        let job = vec![random.byte(); chunk * (RECIPE_LIMIT + 1)];
        let fitting = &job[chunk..];
        let after = take(&fresh, RECIPE_LIMIT, fitting, ACCEPTED, tally)?;
        take(&fresh, RECIPE_LIMIT - 1, fitting, RECIPE_FULL, tally)?;
        take(&fresh, RECIPE_LIMIT, &job, RECIPE_FULL, tally)?;
        take(&fresh, RECIPE_LIMIT + 1, fitting, MEMORY_LIMIT, tally)?;
        let store = &after.store;
        rebuild(store, &after.recipe, job.len(), ACCEPTED, tally)?;
        let over = [&after.recipe[..], &[0]].concat();
        rebuild(store, &over, job.len(), MEMORY_LIMIT, tally)?;
        let mut wrong = after.recipe.to_vec();
        wrong[RECIPE_LIMIT - 1] = store.chunks();
        rebuild(store, &wrong, job.len(), CHUNK_NUMBER, tally)?;
        rebuild(store, &wrong, 10, CHUNK_NUMBER, tally)?;
    }
    Ok(())
}

/// A job of 65,535 chunks of three bytes, all of them new: no job saves less or has more cuts with values
/// above 7E.
fn least_saving(tally: &mut Tally) -> Result<(), String> {
    let chunk = |i: usize| [i % 128 + 128, i / 128 % 128, i / 16_384].map(|byte| byte as u8);
    let job: Vec<u8> = (0..RECIPE_LIMIT).flat_map(chunk).collect();
    let fresh = Store::new([2, 0, 0], &used(job.len()), &used(DIRECTORY_LIMIT));
    let after = take(&fresh, RECIPE_LIMIT, &job, ACCEPTED, tally)?;
    let (saving, cuts) = (after.saving[0], after.cuts_by_value());
    let (least, most) = (-147_456, [0, 0, RECIPE_LIMIT as u64]);
    if saving != least || cuts != most {
        return Err(format!(
            "65,535 new chunks save {saving}, not {least}, or have the cuts {cuts:?}, not {most:?}."
        ));
    }
    Ok(())
}

/// A pool of 67,108,864 bytes that is full, or full but for one chunk, and one of a byte more.
fn longest_pools(random: &mut Random, tally: &mut Tally) -> Result<(), String> {
    let length = longest_chunk(WINDOW_LIMIT) as usize - 1;
    let last = POOL_LIMIT / length - 1;
    let chunks: Vec<Vec<u8>> = (0..=last).map(|_| random.bytes(length)).collect();
    let job = vec![0x11; WINDOW_LIMIT as usize + 1];
    let full = Store::of_chunks(WINDOW_LIMIT, &chunks, &[], &used(4));
    let recipe = [last as u32, 0];
    take(&full, 3, &job, POOL_FULL, tally)?;
    look(&full, last as u32, ACCEPTED, tally)?;
    rebuild(&full, &recipe, 2 * length, ACCEPTED, tally)?;
    let over = Store::of_chunks(WINDOW_LIMIT, &chunks, &[0], &used(4));
    take(&over, 3, &job, MEMORY_LIMIT, tally)?;
    look(&over, last as u32, MEMORY_LIMIT, tally)?;
    rebuild(&over, &recipe, 2 * length, MEMORY_LIMIT, tally)?;
    let mut roomy = full;
    for (spare, refusal) in [(job.len() - 1, POOL_FULL), (job.len(), ACCEPTED)] {
        roomy.head[2] = (POOL_LIMIT - spare) as u32;
        roomy.directory[2 * last + 1] = (length - spare) as u32;
        roomy = roomy.indexed();
        take(&roomy, 3, &job, refusal, tally)?;
    }
    Ok(())
}

/// Directories of 131,070 numbers that are full or have one entry left, and of 131,071 and 131,072
/// numbers.
fn longest_directories(random: &mut Random, tally: &mut Tally) -> Result<(), String> {
    let entries = DIRECTORY_LIMIT / 2;
    let chunks: Vec<Vec<u8>> = (0..entries).map(|_| random.bytes(2)).collect();
    let full = Store::of_chunks(1, &chunks, &used(20), &[]);
    let roomy = Store::of_chunks(1, &chunks[1..], &used(20), &used(2));
    let one_new = [0, 1, 2, 3, 0];
    let two_new = [0, 1, 2, 3, 0, 7, 8, 9, 0];
    take(&full, 5, &chunks[40_000], ACCEPTED, tally)?;
    take(&full, 5, &one_new, DIRECTORY_FULL, tally)?;
    take(&roomy, 5, &one_new, ACCEPTED, tally)?;
    take(&roomy, 5, &two_new, DIRECTORY_FULL, tally)?;
    look(&full, 65_534, ACCEPTED, tally)?;
    look(&full, 65_535, CHUNK_NUMBER, tally)?;
    rebuild(&full, &[65_534, 0], 4, ACCEPTED, tally)?;
    for more in [1, 2] {
        let over = Store::of_chunks(1, &chunks, &used(20), &used(more));
        take(&over, 5, &one_new, MEMORY_LIMIT, tally)?;
        look(&over, 0, MEMORY_LIMIT, tally)?;
        rebuild(&over, &[0], 4, MEMORY_LIMIT, tally)?;
    }
    Ok(())
}

/// Indexes of 66,559 numbers, the longest there are, with 65,535 equal chunks on a chain, the highest
/// number first or the lowest. Refused are a chain that leads back from its end to its start, an index
/// with a number less or more, and a head that leaves out the first chunk of the chain.
fn longest_chains(tally: &mut Tally) -> Result<(), String> {
    let entries = DIRECTORY_LIMIT / 2;
    let chunk = vec![5, 5];
    let honest = Store::of_chunks(1, &vec![chunk.clone(); entries], &used(9), &[]);
    let chain = index::chain(&chunk);
    let mut reversed = honest.clone();
    reversed.index[chain] = 0;
    for number in 0..entries {
        reversed.index[CHAINS + number] = 1 + number as u32;
    }
    reversed.index[CHAINS + entries - 1] = index::CHAIN_END;
    for (store, last) in [(&honest, 0), (&reversed, entries - 1)] {
        let recipe = take(store, 3, &[5, 5, 5, 5], ACCEPTED, tally)?.recipe;
        if recipe[..2] != [0, 0] {
            return Err(format!("The lowest number is 0, and not in {recipe:?}."));
        }
        take(store, 3, &[6], DIRECTORY_FULL, tally)?;
        let mut forged = store.clone();
        forged.index[CHAINS + last] = store.index[chain];
        take(&forged, 3, &[6], INDEX, tally)?;
        forged.index = store.index.first(CHAINS + entries - 1);
        take(&forged, 3, &[6], INDEX_LENGTH, tally)?;
        forged.index = Lent::new(&[&store.index[..], &[index::CHAIN_END]].concat());
        take(&forged, 3, &[6], INDEX_LENGTH, tally)?;
        forged = store.clone();
        forged.index[chain] = store.index[CHAINS + store.index[chain] as usize];
        take(&forged, 3, &[6], INDEX, tally)?;
    }
    Ok(())
}

/// Chunks of 16,385 bytes, the longest there are, which differ in their last byte.
fn longest_chunks(tally: &mut Tally) -> Result<(), String> {
    let longest = longest_chunk(WINDOW_LIMIT) as usize;
    let rise: Vec<u8> = (0..=255)
        .flat_map(|byte| [byte; WINDOW_LIMIT as usize])
        .collect();
    let job = [&rise[..], &[0], &rise[..], &[1]].concat();
    let uncut = expect(&Feed::new(&[WINDOW_LIMIT, 0, 0, 0], &rise), ACCEPTED, tally)?;
    let last = expect(&Feed::new(&uncut.scanner, &[255, 255]), ACCEPTED, tally)?;
    let cut = expect(&Feed::new(&[WINDOW_LIMIT, 0, 0, 0], &job), ACCEPTED, tally)?;
    let fed = [&uncut.fed[..], &last.fed, &cut.fed].concat();
    let limit = u64::from(CHUNK_LIMIT);
    let peak = [255 * u64::from(WINDOW_LIMIT) + 1, 255];
    let expected = [
        [limit - 1, 0, 0, 0],
        [1, 1, peak[0], peak[1]],
        [limit, 1, peak[0], peak[1]],
    ];
    if fed != expected.concat() {
        return Err(format!("The feeds of the longest chunk give {fed:?}."));
    }
    let fresh = Store::new([WINDOW_LIMIT, 0, 0], &used(2 * longest), &used(4));
    let after = take(&fresh, 2, &job, ACCEPTED, tally)?;
    rebuild(&after.store, &[1, 0], job.len() + 1, ACCEPTED, tally)?;
    take(&fresh, 1, &job, RECIPE_FULL, tally)?;
    let tight = Store::new([WINDOW_LIMIT, 0, 0], &used(2 * longest - 1), &used(4));
    take(&tight, 2, &job, POOL_FULL, tally)?;
    Ok(())
}

/// The longest rebuilt job, and the end of a forged store that is 0 in 32 bits.
fn largest_sums(tally: &mut Tally) -> Result<(), String> {
    let longest = longest_chunk(WINDOW_LIMIT) as usize;
    let store = Store::of_chunks(WINDOW_LIMIT, &[used(longest)], &[], &[]);
    rebuild(&store, &vec![0; RECIPE_LIMIT], 40, OUTPUT_SHORT, tally)?;
    let length: usize = 1 << 17;
    let count = (1 << 32) / length;
    let directory: Vec<u32> = (0..count)
        .flat_map(|entry| [(entry * length) as u32, length as u32])
        .collect();
    let wrapped = Store::new([WINDOW_LIMIT, count as u32, 0], &used(40), &directory);
    take(&wrapped, 4, &[1, 2, 3], HEAD, tally)?;
    look(&wrapped, 0, HEAD, tally)?;
    rebuild(&wrapped, &[0], 40, HEAD, tally)?;
    Ok(())
}
