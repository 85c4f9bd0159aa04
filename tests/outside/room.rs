//! Room: a job is accepted where recipe, directory and pool have as much of it as the job needs, and
//! is refused for what is lacking where they have less.

use crate::forging;
use crate::memory::{Lent, Store};
use crate::model::*;
use crate::pair::Pair;
use crate::random::Random;
use crate::shrink::{hold, Case, Smaller};
use crate::store_calls::Take;
use crate::tally::Tally;
use std::collections::HashSet;

/// Recipe places, unused directory entries and pool bytes after filled.
#[derive(Clone, Copy, PartialEq, Debug)]
pub struct Room {
    pub places: usize,
    pub entries: usize,
    pub bytes: usize,
}

impl Room {
    /// What a job needs: places for its chunks, entries and bytes for its new chunks. The head must
    /// fit pool and directory.
    pub fn needed(store: &Store, job: &[u8]) -> Self {
        let held: HashSet<&[u8]> = (0..store.chunks() as usize)
            .map(|number| store.chunk(number))
            .collect();
        let chunks = chunks::chunks(store.head[0], job);
        let new: HashSet<&[u8]> = chunks.iter().copied().collect();
        let new = new.difference(&held);
        Room {
            places: chunks.len(),
            entries: new.clone().count(),
            bytes: new.map(|chunk| chunk.len()).sum(),
        }
    }

    /// What is enough for any job of this length.
    pub fn enough(window: u32, length: usize) -> Self {
        let chunks = length / (window as usize + 1) + 1;
        Room {
            places: chunks,
            entries: chunks,
            bytes: length,
        }
    }

    /// What a call is lent. The head must fit pool and directory.
    fn lent(store: &Store, recipe: &[u32]) -> Self {
        Room {
            places: recipe.len(),
            entries: store.directory.len() / 2 - store.chunks() as usize,
            bytes: store.pool.len() - store.head[2] as usize,
        }
    }

    /// Another number for each of the three.
    fn map(self, other: impl FnMut(usize) -> usize) -> Self {
        let [places, entries, bytes] = [self.places, self.entries, self.bytes].map(other);
        Room {
            places,
            entries,
            bytes,
        }
    }

    /// The same room but for one of the three, which is that of `less`.
    pub fn with_less(self, less: Room) -> [Room; 3] {
        let (places, entries, bytes) = (less.places, less.entries, less.bytes);
        [
            Room { places, ..self },
            Room { entries, ..self },
            Room { bytes, ..self },
        ]
    }

    /// The grounds of what is lacking for this need.
    fn lacking(&self, needed: &Room) -> Vec<u32> {
        [
            (self.places < needed.places, RECIPE_FULL),
            (self.entries < needed.entries, DIRECTORY_FULL),
            (self.bytes < needed.bytes, POOL_FULL),
        ]
        .into_iter()
        .filter_map(|(lacking, ground)| lacking.then_some(ground))
        .collect()
    }

    /// A job with what the store holds and just this room.
    pub fn lend(&self, random: &mut Random, store: &Store, job: &[u8]) -> Pair {
        let pool = &store.pool[..store.head[2] as usize];
        let directory = &store.directory[..2 * store.chunks() as usize];
        let index = &store.index[..CHAINS + store.chunks() as usize];
        let spare_pool = random.bytes(self.bytes);
        let spare_directory = random.numbers(2 * self.entries);
        let spare_index = random.numbers(self.entries);
        let roomy = Store {
            head: store.head.clone(),
            pool: Lent::new(&[pool, &spare_pool].concat()),
            directory: Lent::new(&[directory, &spare_directory].concat()),
            index: Lent::new(&[index, &spare_index].concat()),
        };
        Pair::new(&roomy, &forging::recipe(random, self.places), job)
    }
}

/// A quote and a take that are refused by 6, 7 or 8 exactly where room is lacking.
#[derive(Clone, Debug)]
pub struct Roomy(pub Pair);

impl Case for Roomy {
    fn check(&self, tally: &mut Tally) -> Result<(), String> {
        let (refusal, _) = self.0.compare(tally)?;
        if ![ACCEPTED, RECIPE_FULL, DIRECTORY_FULL, POOL_FULL].contains(&refusal) {
            return Ok(());
        }
        let Pair(Take {
            store, recipe, job, ..
        }) = &self.0;
        let needed = Room::needed(store, job);
        let enough = Room::enough(store.head[0], job.len());
        if !enough.lacking(&needed).is_empty() {
            return Err(format!("{needed:?} is needed, more than {enough:?}."));
        }
        let lent = Room::lent(store, recipe);
        let lacking = lent.lacking(&needed);
        if lacking.contains(&refusal) || (lacking.is_empty() && refusal == ACCEPTED) {
            return Ok(());
        }
        Err(format!(
            "Refusal {refusal} came where {needed:?} is needed and {lent:?} is lent."
        ))
    }

    fn smaller(&self) -> Smaller<'_, Self> {
        Box::new(self.0.smaller().map(Roomy))
    }
}

/// Tries a job with the room that it needs, with a place, an entry or a byte less, with what is enough
/// for any job of its length, and with any room below that. The head must fit pool and directory.
pub fn try_rooms(
    random: &mut Random,
    store: &Store,
    job: &[u8],
    tally: &mut Tally,
) -> Result<(), String> {
    let needed = Room::needed(store, job);
    let enough = Room::enough(store.head[0], job.len());
    let any = enough.map(|most| random.below(most + 1));
    let less = needed.map(|number| number.saturating_sub(1));
    for room in needed
        .with_less(less)
        .into_iter()
        .chain([needed, enough, any])
    {
        hold(&Roomy(room.lend(random, store, job)), tally)?;
    }
    Ok(())
}

/// Checks that no less is enough: jobs of every window whose chunks are all new and as short as they
/// can be need all of it.
pub fn run(random: &mut Random, tally: &mut Tally) -> Result<(), String> {
    for window in 1..=WINDOW_LIMIT {
        let cut = window as usize + 1;
        let chunks = 1 + random.below(20);
        let last = 1 + random.below(window as usize);
        let job: Vec<u8> = (0..cut * chunks + last)
            .map(|index| {
                if index % cut == 0 {
                    200
                } else {
                    (index / cut) as u8
                }
            })
            .collect();
        let fresh = Store::new([window, 0, 0], &[], &[]);
        let (needed, enough) = (Room::needed(&fresh, &job), Room::enough(window, job.len()));
        if needed != enough {
            return Err(format!(
                "Job {job:02X?} should need {enough:?} and needs {needed:?}."
            ));
        }
        try_rooms(random, &fresh, &job, tally)?;
    }
    Ok(())
}
