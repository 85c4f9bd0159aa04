//! Stores that no take has made: valid ones, also with the same chunk twice, and damaged ones. Recipes
//! that hold anything before a call.

use crate::jobs;
use crate::memory::{Lent, Store};
use crate::model::index::chain;
use crate::model::{chunks, longest_chunk, CHAINS};
use crate::random::Random;
use std::sync::LazyLock;

/// The bytes at the end of a chunk that its Gear sum depends on.
const SUMMED: usize = 32;

/// The chunks of two bytes on each chain.
static PAIRS: LazyLock<Vec<Vec<[u8; 2]>>> = LazyLock::new(|| {
    let mut pairs = vec![Vec::new(); CHAINS];
    for pair in (0..=u16::MAX).map(u16::to_be_bytes) {
        pairs[chain(&pair)].push(pair);
    }
    pairs
});

/// A store whose head fits, and a job some of whose chunks it holds.
pub fn store(random: &mut Random) -> (Store, Vec<u8>) {
    let window = jobs::window(random);
    let length = 1 + random.below(4 * window as usize + 40);
    let job = jobs::job(random, window, length);
    let mut held: Vec<Vec<u8>> = Vec::new();
    for chunk in chunks::chunks(window, &job) {
        match random.below(5) {
            0 => held.extend([chunk.to_vec(), chunk.to_vec()]),
            1 => held.push(near(random, chunk)),
            2 => held.push(chunk.to_vec()),
            3 => held.extend([beside(random, chunk), chunk.to_vec(), beside(random, chunk)]),
            _ => {}
        }
    }
    if random.once_in(10) {
        held.push(random.bytes(longest_chunk(window) as usize));
    }
    let pool = random.below(60);
    let spare_pool = random.bytes(pool);
    let entries = random.below(8);
    let spare_directory = random.numbers(2 * entries);
    (
        Store::of_chunks(window, &held, &spare_pool, &spare_directory),
        job,
    )
}

/// Recipe memory of any numbers, of small ones, or of ones near a power of two.
pub fn recipe(random: &mut Random, places: usize) -> Lent<u32> {
    let base = random.pick(&[0, 1 << 15, 1 << 16, 1 << 24, 1 << 30, 1 << 31, u32::MAX]);
    let numbers = random.numbers(places).into_iter();
    if random.once_in(2) {
        Lent::new(&numbers.collect::<Vec<u32>>())
    } else {
        let near: Vec<u32> = numbers
            .map(|number| base.wrapping_add(number % 300))
            .collect();
        Lent::new(&near)
    }
}

/// A chunk of the same length that differs in one byte, or one that is longer or shorter by a byte
/// at its end.
fn near(random: &mut Random, chunk: &[u8]) -> Vec<u8> {
    let mut near = chunk.to_vec();
    match random.below(3) {
        0 => near.push(random.byte()),
        1 if near.len() > 1 => near.truncate(near.len() - 1),
        _ => {
            let index = random.below(near.len());
            near[index] ^= 1 << random.below(8);
        }
    }
    near
}

/// A chunk on the same chain: of two bytes or, where the chunk is long, with the same ending.
fn beside(random: &mut Random, chunk: &[u8]) -> Vec<u8> {
    if chunk.len() <= SUMMED || random.once_in(2) {
        return random.pick(&PAIRS[chain(chunk)]).to_vec();
    }
    let mut beside = chunk.to_vec();
    beside[random.below(chunk.len() - SUMMED)] ^= 1 << random.below(8);
    beside
}

/// A store that was damaged in one way or two. Some kinds of damage leave a head that fits.
pub fn damaged_store(random: &mut Random) -> (Store, Vec<u8>) {
    let (mut store, job) = store(random);
    for _ in 0..1 + random.below(2) {
        match random.below(4) {
            0 => damage_head(random, &mut store),
            1 => damage_entry(random, &mut store),
            2 => damage_sizes(random, &mut store),
            _ => store = with_edge_length(random, store.head[0]),
        }
    }
    (store, job)
}

/// Changes one number of the head.
fn damage_head(random: &mut Random, store: &mut Store) {
    let index = random.below(3);
    let number = store.head[index];
    store.head[index] = match random.below(6) {
        0 | 1 => number.wrapping_add(1),
        2 | 3 => number.wrapping_sub(1),
        4 => random.pick(&[0, 64, 65, 1_024, 1_025, 1 << 31, u32::MAX]),
        _ => random.number() as u32,
    };
}

/// Changes an offset or a length of the directory, in some cases so that 32-bit sums still agree.
fn damage_entry(random: &mut Random, store: &mut Store) {
    let entries = store.directory.len() / 2;
    if entries == 0 {
        return;
    }
    let entry = 2 * random.below(entries.min(store.chunks() as usize + 1));
    let change = random.pick(&[1, u32::MAX, 1 << 31, 256, u32::MAX - 255]);
    match random.below(4) {
        0 => store.directory[entry] = store.directory[entry].wrapping_add(change),
        1 => store.directory[entry + 1] = store.directory[entry + 1].wrapping_add(change),
        2 => store.directory[entry + 1] = random.pick(&[0, 1, u32::MAX]),
        _ => {
            store.directory[entry + 1] = store.directory[entry + 1].wrapping_add(change);
            for later in store.directory[entry + 2..].chunks_exact_mut(2) {
                later[0] = later[0].wrapping_add(change);
            }
            store.head[2] = store.head[2].wrapping_add(change);
        }
    }
}

/// Ends the pool or the directory at what the head tells or before it, or makes the directory's
/// length odd.
fn damage_sizes(random: &mut Random, store: &mut Store) {
    let filled = store.head[2] as usize;
    let used = 2 * store.chunks() as usize;
    let length = store.directory.len();
    match random.below(6) {
        0 => store.pool = store.pool.first(filled),
        1 => store.pool = store.pool.first(filled.saturating_sub(1)),
        2 => store.directory = store.directory.first(used),
        3 => store.directory = store.directory.first(used.saturating_sub(2)),
        4 => store.directory = store.directory.first(length.saturating_sub(1)),
        _ => store.directory = Lent::new(&[&store.directory[..], &[7]].concat()),
    }
}

/// Another store, one of whose chunks is empty, as long as the window allows or longer by one.
fn with_edge_length(random: &mut Random, window: u32) -> Store {
    let window = window.min(16);
    let longest = longest_chunk(window.max(1)) as usize;
    let length = random.pick(&[0, 1, longest - 1, longest, longest + 1]);
    let mut chunks = vec![vec![3], vec![4, 5], vec![6, 7, 8]];
    chunks[random.below(3)] = vec![random.byte(); length];
    Store::of_chunks(window, &chunks, &[1, 2, 3], &[4, 5])
}
