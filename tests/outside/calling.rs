//! Single calls on forged stores: quotes, takes, looks and rebuildings.

use crate::forged_index;
use crate::forging;
use crate::jobs;
use crate::memory::{Lent, Store};
use crate::pair::Pair;
use crate::random::Random;
use crate::room::{try_rooms, Roomy};
use crate::shrink::hold;
use crate::store_calls::{Look, Rebuild, StoreOpen};
use crate::tally::Tally;

/// Opens stores, then makes this many rounds of calls on forged ones.
pub fn run(random: &mut Random, rounds: u64, tally: &mut Tally) -> Result<(), String> {
    for window in (0..2_100).chain(jobs::REFUSED_WINDOWS) {
        hold(&StoreOpen::new(window), tally)?;
        let store = Store::of_chunks(window, &[vec![7; 2]], &[0; 8], &[0; 4]);
        let pair = Pair::new(&store, &Lent::new(&[0; 8]), b"label");
        hold(&pair, tally)?;
        look_and_rebuild(random, &store, tally)?;
    }
    for _ in 0..rounds {
        let fits = random.once_in(2);
        let (store, job) = if fits {
            let (store, job) = forging::store(random);
            (forged_index::accepted(random, &store), job)
        } else {
            let (store, job) = forging::damaged_store(random);
            (forged_index::any(random, &store), job)
        };
        let job = if random.once_in(20) { Vec::new() } else { job };
        let recipe = forging::recipe(random, job.len());
        hold(&Roomy(Pair::new(&store, &recipe, &job)), tally)?;
        if fits && !job.is_empty() {
            try_rooms(random, &store, &job, tally)?;
        }
        look_and_rebuild(random, &store, tally)?;
    }
    Ok(())
}

/// Looks at numbers in and out of the store, and rebuilds a recipe, some of whose numbers may be
/// wrong.
fn look_and_rebuild(random: &mut Random, store: &Store, tally: &mut Tally) -> Result<(), String> {
    let chunks = store.chunks();
    let any = random.below(chunks.clamp(1, 50) as usize) as u32;
    for number in [any, chunks.wrapping_sub(1), chunks, random.number() as u32] {
        hold(&Look::new(store, number), tally)?;
    }
    let places = random.below(12);
    let mut recipe: Vec<u32> = (0..places)
        .map(|_| random.below(chunks.clamp(1, 50) as usize) as u32)
        .collect();
    if places > 0 && random.once_in(3) {
        recipe[random.below(places)] = random.pick(&[chunks, chunks.wrapping_add(1), u32::MAX]);
    }
    let length = rebuilt_length(store, &recipe);
    let shorter = length.saturating_sub(1);
    let (longer, any) = (length + random.below(20), random.below(length + 1));
    for length in [length, shorter, longer, any] {
        let output = Lent::new(&random.bytes(length));
        hold(&Rebuild::new(store, &recipe, &output), tally)?;
    }
    Ok(())
}

/// The sum of the lengths that the directory tells for these numbers, those left out that are too
/// large.
fn rebuilt_length(store: &Store, recipe: &[u32]) -> usize {
    let length = |&number: &u32| store.directory.get(2 * number as usize + 1);
    let sum: usize = recipe
        .iter()
        .filter_map(length)
        .map(|&length| length as usize)
        .sum();
    sum.min(10_000)
}
