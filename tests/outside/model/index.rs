//! The index by its definition: the Gear sum of a chunk, the chain that the sum chooses, and what the
//! chains of a lent index meet. Nothing here searches for a chunk.

use super::CHAINS;
use crate::memory::Store;

/// What ends a chain. A fresh index has nothing else.
pub const CHAIN_END: u32 = u32::MAX;

/// The entry of the Gear table that follows this one.
const fn next_entry(entry: u32) -> u32 {
    let first = entry ^ (entry << 13);
    let second = first ^ (first >> 17);
    second ^ (second << 5)
}

/// The Gear table, by its rule.
pub const TABLE: [u32; 256] = {
    let mut table = [270_369; 256];
    let mut byte = 1;
    while byte < table.len() {
        table[byte] = next_entry(table[byte - 1]);
        byte += 1;
    }
    table
};

/// The Gear sum of a chunk, over all of its bytes.
pub fn sum(chunk: &[u8]) -> u32 {
    let add = |sum: u64, &byte: &u8| (2 * sum + u64::from(TABLE[usize::from(byte)])) % (1 << 32);
    chunk.iter().fold(0, add) as u32
}

/// The chain of a chunk, by the top ten bits of its sum.
pub fn chain(chunk: &[u8]) -> usize {
    (sum(chunk) >> 22) as usize
}

/// A fresh index for a directory of so many numbers.
pub fn fresh(directory: usize) -> Vec<u32> {
    vec![CHAIN_END; length(directory)]
}

/// The length of an index for a directory of so many numbers.
pub fn length(directory: usize) -> usize {
    CHAINS + directory / 2
}

/// Enters a chunk of the store at the front of its chain.
pub fn enter(store: &mut Store, number: usize) {
    let chain = chain(store.chunk(number));
    store.index[CHAINS + number] = store.index[chain];
    store.index[chain] = number as u32;
}

/// Tells whether the chains meet every chunk just once under its own sum, and nothing else. The index
/// must have its length and the head fit.
pub fn meets_each_once(store: &Store) -> bool {
    let mut met_on = vec![None; store.chunks() as usize];
    for chain in 0..CHAINS {
        let mut number = store.index[chain];
        while number != CHAIN_END {
            match met_on.get_mut(number as usize) {
                Some(place @ None) => *place = Some(chain),
                Some(_) | None => return false,
            }
            number = store.index[CHAINS + number as usize];
        }
    }
    let own = |number: usize| Some(chain(store.chunk(number)));
    (0..met_on.len()).all(|number| met_on[number] == own(number))
}
