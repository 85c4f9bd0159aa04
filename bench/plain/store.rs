//! The store: the quote and the take of a job by the index, and the look at a chunk.

use super::chunker::first_chunk;
use super::index::{self, chain_of, index_refused};
use crate::interface::{
    Answer, Head, ACCEPTED, CHAINS, CHUNK_NUMBER, DIRECTORY_FULL, DIRECTORY_LIMIT, HEAD, INDEX,
    INDEX_LENGTH, JOB_LENGTH, JOB_LIMIT, MEMORY_LIMIT, POOL_FULL, POOL_LIMIT, RECIPE_FULL,
    RECIPE_LIMIT, WINDOW, WINDOW_LIMIT,
};

/// The numbers that fill a packet of the link, 64 bytes of 2 each, and the bytes that it is charged at.
const PACKET_NUMBERS: usize = 32;
const PACKET_CHARGE: usize = 72;

/// Ground 1 holds.
pub fn window_refused(window: u32) -> bool {
    !(1..=WINDOW_LIMIT).contains(&window)
}

/// Ground 4 holds of pool or directory.
pub fn memory_refused(pool: &[u8], directory: &[u32]) -> bool {
    pool.len() > POOL_LIMIT || directory.len() > DIRECTORY_LIMIT || directory.len() % 2 != 0
}

/// Ground 5 holds.
pub fn head_refused(head: &Head, pool: &[u8], directory: &[u32]) -> bool {
    let entries = directory.as_chunks::<2>().0;
    let Some(used) = entries.get(..head.chunks as usize) else {
        return true;
    };
    let longest = 256 * head.window + 1;
    let mut from = 0;
    for [offset, length] in used {
        if u64::from(*offset) != from || !(1..=longest).contains(length) {
            return true;
        }
        from += u64::from(*length);
    }
    from != u64::from(head.filled) || from > pool.len() as u64
}

/// The first of the grounds 1, 3 to 5, 11 and 12 that holds.
fn refused(
    head: &Head,
    pool: &[u8],
    directory: &[u32],
    index: &[u32],
    recipe: &[u32],
    job: &[u8],
) -> Result<(), u32> {
    if window_refused(head.window) {
        return Err(WINDOW);
    }
    if job.is_empty() || job.len() > JOB_LIMIT {
        return Err(JOB_LENGTH);
    }
    if memory_refused(pool, directory) || recipe.len() > RECIPE_LIMIT {
        return Err(MEMORY_LIMIT);
    }
    if head_refused(head, pool, directory) {
        return Err(HEAD);
    }
    let entries = directory.as_chunks::<2>().0;
    if index.len() != CHAINS + entries.len() {
        return Err(INDEX_LENGTH);
    }
    if index_refused(pool, &entries[..head.chunks as usize], index) {
        return Err(INDEX);
    }
    Ok(())
}

/// A new chunk of a job, its chain, and the new chunk of the same chain before it.
struct New<'a> {
    chunk: &'a [u8],
    chain: usize,
    before: u32,
}

/// The new chunks of a job, in order, their bytes, and the last chunk of each chain.
struct NewChunks<'a> {
    chunks: Vec<New<'a>>,
    bytes: usize,
    last: [u32; CHAINS],
}

impl<'a> NewChunks<'a> {
    fn none() -> Self {
        Self {
            chunks: Vec::new(),
            bytes: 0,
            last: [index::END; CHAINS],
        }
    }

    /// The place of an equal chunk.
    fn search(&self, chain: usize, chunk: &[u8]) -> Option<u32> {
        let mut place = self.last[chain];
        while place != index::END {
            let new = &self.chunks[place as usize];
            if new.chunk == chunk {
                return Some(place);
            }
            place = new.before;
        }
        None
    }

    /// Adds a chunk, if so many entries and pool bytes are room enough for all.
    fn push(
        &mut self,
        entries: usize,
        room: usize,
        chain: usize,
        chunk: &'a [u8],
    ) -> Result<(), u32> {
        if self.chunks.len() == entries {
            return Err(DIRECTORY_FULL);
        }
        if chunk.len() > room - self.bytes {
            return Err(POOL_FULL);
        }
        let before = self.last[chain];
        self.last[chain] = self.chunks.len() as u32;
        self.bytes += chunk.len();
        self.chunks.push(New {
            chunk,
            chain,
            before,
        });
        Ok(())
    }
}

/// Writes a job's recipe, and gives back what the job comes to and its new chunks, in order.
fn survey<'a>(
    head: &Head,
    pool: &[u8],
    directory: &[u32],
    index: &[u32],
    recipe: &mut [u32],
    job: &'a [u8],
) -> Result<(Answer, Vec<New<'a>>), u32> {
    refused(head, pool, directory, index, recipe, job)?;
    let entries = directory.as_chunks::<2>().0;
    let (used, unused) = entries.split_at(head.chunks as usize);
    let room = pool.len() - head.filled as usize;
    let mut new = NewChunks::none();
    let mut cuts = [0; 3];
    let mut numbers = recipe.iter_mut();
    let mut rest = job;
    while !rest.is_empty() {
        let (length, peak) = first_chunk(head.window as usize, rest);
        let (chunk, after) = rest.split_at(length);
        if let Some(value) = peak {
            cuts[kind(value)] += 1;
        }
        let number = numbers.next().ok_or(RECIPE_FULL)?;
        let next = head.chunks + new.chunks.len() as u32;
        let chain = chain_of(chunk);
        let stored = index::search(pool, used, index, chain, chunk);
        let found = stored.or_else(|| Some(head.chunks + new.search(chain, chunk)?));
        if found.is_none() {
            new.push(unused.len(), room, chain, chunk)?;
        }
        *number = found.unwrap_or(next);
        rest = after;
    }
    let left = numbers.len();
    let answer = answer(recipe.len() - left, new.bytes, job.len(), cuts);
    Ok((answer, new.chunks))
}

/// The count that a cut belongs to, by the value of its maximum point: control bytes, printable ones, those above.
fn kind(value: u8) -> usize {
    match value {
        ..0x20 => 0,
        0x20..=0x7e => 1,
        _ => 2,
    }
}

/// What an accepted job comes to.
fn answer(numbers: usize, new_bytes: usize, job_bytes: usize, cuts: [usize; 3]) -> Answer {
    let packets = numbers.div_ceil(PACKET_NUMBERS);
    let [control, printable, above] = cuts;
    let repeated_bytes = job_bytes - new_bytes;
    let counts = [
        numbers,
        new_bytes,
        repeated_bytes,
        control,
        printable,
        above,
    ];
    Answer {
        counts: counts.map(|count| count as u64),
        saving: job_bytes as i64 - (new_bytes + PACKET_CHARGE * packets) as i64,
    }
}

/// Quotes a job.
#[inline(never)]
pub fn quote(
    head: &Head,
    pool: &[u8],
    directory: &[u32],
    index: &[u32],
    recipe: &mut [u32],
    job: &[u8],
    answer: &mut Answer,
) -> u32 {
    *answer = Answer::default();
    match survey(head, pool, directory, index, recipe, job) {
        Ok((quoted, _)) => {
            *answer = quoted;
            ACCEPTED
        }
        Err(refusal) => refusal,
    }
}

/// Takes a job: quotes it, writes its new chunks and their entries, and enters them in the index.
#[inline(never)]
pub fn take(
    head: &mut Head,
    pool: &mut [u8],
    directory: &mut [u32],
    index: &mut [u32],
    recipe: &mut [u32],
    job: &[u8],
    answer: &mut Answer,
) -> u32 {
    *answer = Answer::default();
    match survey(head, pool, directory, index, recipe, job) {
        Ok((quoted, new)) => {
            let entries = directory.as_chunks_mut::<2>().0;
            for New { chunk, chain, .. } in new {
                index::enter(index, chain, head.chunks);
                pool[head.filled as usize..][..chunk.len()].copy_from_slice(chunk);
                entries[head.chunks as usize] = [head.filled, chunk.len() as u32];
                head.filled += chunk.len() as u32;
                head.chunks += 1;
            }
            *answer = quoted;
            ACCEPTED
        }
        Err(refusal) => refusal,
    }
}

/// Finds a chunk's stretch of the pool.
#[inline(never)]
pub fn look(
    head: &Head,
    pool: &[u8],
    directory: &[u32],
    number: u32,
    stretch: &mut [u64; 2],
) -> u32 {
    *stretch = [0, 0];
    if window_refused(head.window) {
        return WINDOW;
    }
    if memory_refused(pool, directory) {
        return MEMORY_LIMIT;
    }
    if head_refused(head, pool, directory) {
        return HEAD;
    }
    if number >= head.chunks {
        return CHUNK_NUMBER;
    }
    *stretch = directory.as_chunks::<2>().0[number as usize].map(u64::from);
    ACCEPTED
}
