//! Another content-defined chunker, for its speed alone: it cuts at other places. A sum over the last bytes by a table of
//! random numbers (Gear), with the first bytes of a chunk skipped, as FastCDC does.

use crate::interface::WINDOW_LIMIT;

/// A random number for each byte (splitmix64).
const TABLE: [u64; 256] = {
    let mut table = [0; 256];
    let mut byte = 0;
    while byte < 256 {
        let mut mixed = 0x9e37_79b9_7f4a_7c15_u64.wrapping_mul(byte as u64 + 1);
        mixed = (mixed ^ (mixed >> 30)).wrapping_mul(0xbf58_476d_1ce4_e5b9);
        mixed = (mixed ^ (mixed >> 27)).wrapping_mul(0x94d0_49bb_1331_11eb);
        table[byte] = mixed ^ (mixed >> 31);
        byte += 1;
    }
    table
};

/// The number of chunks of a job; 0 where the window is refused. A chunk has at least as many bytes as one of that window, at
/// most as many, and on random bytes about as many on average.
#[inline(never)]
pub fn chunk_count(window: u32, job: &[u8]) -> u64 {
    if !(1..=WINDOW_LIMIT).contains(&window) {
        return 0;
    }
    let window = window as usize;
    let threshold = u64::MAX / (3 * window as u64 / 4 + 1);
    let mut rest = job;
    let mut count = 0;
    while !rest.is_empty() {
        rest = &rest[first_chunk(window, threshold, rest)..];
        count += 1;
    }
    count
}

/// The length of the first chunk: a cut comes where the sum is at most the threshold.
#[inline(always)]
fn first_chunk(window: usize, threshold: u64, job: &[u8]) -> usize {
    let end = job.len().min(256 * window + 1);
    let mut sum = 0_u64;
    for (i, &byte) in job[..end].iter().enumerate().skip(window) {
        sum = (sum << 1).wrapping_add(TABLE[byte as usize]);
        if sum <= threshold {
            return i + 1;
        }
    }
    end
}
