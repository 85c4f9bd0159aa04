//! Indexes of every kind, lent with stores whose head fits: those that are right must be accepted,
//! whatever the order of their chains, and the others refused, in the order of the grounds.

use crate::forged_index::{self, Kind, ALL};
use crate::forging;
use crate::memory::{Lent, Store};
use crate::model::index::{chain, CHAIN_END};
use crate::model::*;
use crate::pair::Pair;
use crate::random::Random;
use crate::room::Room;
use crate::store_calls::Take;
use crate::tally::Tally;
use std::iter::successors;

/// Tries this many jobs with indexes of all kinds.
pub fn run(random: &mut Random, rounds: u64, tally: &mut Tally) -> Result<(), String> {
    for _ in 0..rounds {
        let (store, job) = forging::store(random);
        let enough = Room::enough(store.head[0], job.len());
        let Pair(roomy) = enough.lend(random, &store, &job);
        for (place, kind) in ALL.iter().enumerate() {
            if let Some(store) = forged_index::forge(kind, random, &roomy.store) {
                let take = Take::new(&store, &roomy.recipe, &job);
                Pair(take).expect(kind.1, tally)?;
                tally.count_index(place);
                if kind.1 == ACCEPTED && higher_comes_first(&store, &job) {
                    tally.count_higher_first();
                }
                check_order(random, kind, &store, &job, tally)?;
            }
        }
    }
    Ok(())
}

/// Tells whether the store holds a chunk of the job twice and its lowest number is not the first on
/// the chain.
fn higher_comes_first(store: &Store, job: &[u8]) -> bool {
    let held = |place: usize| Some(store.index[place]).filter(|&number| number != CHAIN_END);
    chunks::chunks(store.head[0], job).iter().any(|&chunk| {
        let is_equal = |number: &u32| store.chunk(*number as usize) == chunk;
        let next = |number: &u32| held(CHAINS + *number as usize);
        let first = successors(held(chain(chunk)), next).find(is_equal);
        first != (0..store.chunks()).find(is_equal)
    })
}

/// Adds other faults, and checks that the first ground of all is reported.
fn check_order(
    random: &mut Random,
    kind: &Kind,
    store: &Store,
    job: &[u8],
    tally: &mut Tally,
) -> Result<(), String> {
    let mut store = store.clone();
    let mut refusal = kind.1;
    let mut places = job.len();
    if refusal != INDEX_LENGTH && random.once_in(3) {
        let more = random.numbers(1);
        store.index = Lent::new(&[&store.index[..], &more].concat());
        refusal = INDEX_LENGTH;
    }
    if random.once_in(2) {
        places = 0;
        if refusal == ACCEPTED {
            refusal = RECIPE_FULL;
        }
    }
    if random.once_in(4) {
        let place = 1 + random.below(2);
        store.head[place] = store.head[place].wrapping_add(random.pick(&[1, u32::MAX]));
        refusal = HEAD;
    }
    if random.once_in(200) {
        places = RECIPE_LIMIT + 1;
        refusal = MEMORY_LIMIT;
    }
    let recipe = forging::recipe(random, places);
    Pair::new(&store, &recipe, job).expect(refusal, tally)?;
    Ok(())
}
