//! Rebuildings of a short chunk that stands at every short distance from the end of the pool, of the
//! job, or of both, so that a block which reaches past one of them is noticed.

use crate::memory::{Lent, Store};
use crate::model::WINDOW_LIMIT;
use crate::random::Random;
use crate::shrink::hold;
use crate::store_calls::Rebuild;
use crate::tally::Tally;

/// The longest chunk, and the longest distance.
const LONGEST: usize = 50;

/// Rebuilds a chunk of each length, with a second one as long as the distance and, where only one of
/// the ends is near, a third.
pub fn run(random: &mut Random, tally: &mut Tally) -> Result<(), String> {
    for length in 1..=LONGEST {
        for distance in 1..=LONGEST {
            let [chunk, second] = [length, distance].map(|length| random.bytes(length));
            let third = random.bytes(2 * LONGEST);
            let pool_ends = [third.clone(), chunk.clone(), second.clone()];
            let job_ends = [chunk.clone(), second.clone(), third];
            rebuild(random, &pool_ends, &[1, 2, 0], tally)?;
            rebuild(random, &job_ends, &[0, 1], tally)?;
            rebuild(random, &[chunk, second], &[0, 1], tally)?;
        }
    }
    Ok(())
}

/// Rebuilds chunks of a full pool, to an output that is just long enough and to one that has bytes to
/// spare.
fn rebuild(
    random: &mut Random,
    chunks: &[Vec<u8>],
    recipe: &[u32],
    tally: &mut Tally,
) -> Result<(), String> {
    let store = Store::of_chunks(WINDOW_LIMIT, chunks, &[], &[]);
    let length: usize = recipe
        .iter()
        .map(|&number| chunks[number as usize].len())
        .sum();
    for spare in [0, 9] {
        let output = Lent::new(&random.bytes(length + spare));
        hold(&Rebuild::new(&store, recipe, &output), tally)?;
    }
    Ok(())
}
