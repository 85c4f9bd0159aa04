//! The index: chains of chunks, chosen by a Gear sum.

use crate::interface::CHAINS;

/// What ends a chain.
pub const END: u32 = u32::MAX;

/// The bytes at the end of a chunk that its sum depends on.
const SUMMED: usize = 32;

/// The Gear table.
const GEAR: [u32; 256] = {
    let mut table = [270_369_u32; 256];
    let mut byte = 1;
    while byte < 256 {
        let mut entry = table[byte - 1];
        entry ^= entry << 13;
        entry ^= entry >> 17;
        entry ^= entry << 5;
        table[byte] = entry;
        byte += 1;
    }
    table
};

/// The chain of a chunk.
pub fn chain_of(chunk: &[u8]) -> usize {
    let last = &chunk[chunk.len().saturating_sub(SUMMED)..];
    let add = |sum: u32, byte: &u8| (sum << 1).wrapping_add(GEAR[usize::from(*byte)]);
    (last.iter().fold(0, add) >> 22) as usize
}

/// Ground 12 holds: goes along every chain, and takes as many steps in all as there are chunks.
pub fn index_refused(pool: &[u8], used: &[[u32; 2]], index: &[u32]) -> bool {
    let (heads, links) = index.split_at(CHAINS);
    let mut left = used.len();
    for (chain, head) in heads.iter().enumerate() {
        let mut number = *head;
        while number != END {
            let Some(&[offset, length]) = used.get(number as usize) else {
                return true;
            };
            let chunk = &pool[offset as usize..][..length as usize];
            if left == 0 || chain_of(chunk) != chain {
                return true;
            }
            left -= 1;
            number = links[number as usize];
        }
    }
    left != 0
}

/// The lowest number of an equal chunk on a chain.
pub fn search(
    pool: &[u8],
    used: &[[u32; 2]],
    index: &[u32],
    chain: usize,
    chunk: &[u8],
) -> Option<u32> {
    let mut lowest = None;
    let mut number = index[chain];
    while number != END {
        let [offset, length] = used[number as usize];
        if length as usize == chunk.len()
            && pool[offset as usize..][..chunk.len()] == *chunk
            && lowest.is_none_or(|lowest| number < lowest)
        {
            lowest = Some(number);
        }
        number = index[CHAINS + number as usize];
    }
    lowest
}

/// Enters a chunk at the front of its chain.
pub fn enter(index: &mut [u32], chain: usize, number: u32) {
    index[CHAINS + number as usize] = index[chain];
    index[chain] = number;
}
