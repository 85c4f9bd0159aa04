//! The store that a Rust programmer writes in an afternoon: a map from the bytes of a chunk to its number, in memory of
//! its own. It tests no ground. To rebuild a job from it, it would have to keep the chunks by their numbers too.

use super::chunker::first_chunk;
use std::collections::HashMap;

/// A store.
pub struct HashStore {
    window: usize,
    numbers: HashMap<Vec<u8>, u32>,
}

/// What a quote or a take tells: the recipe and the bytes of the new chunks.
pub type Told = (Vec<u32>, usize);

impl HashStore {
    /// A store of these chunks, which get their numbers in order.
    pub fn new<'a>(window: u32, chunks: impl Iterator<Item = &'a [u8]>) -> Self {
        let numbers = chunks.map(<[u8]>::to_vec).zip(0..).collect();
        Self {
            window: window as usize,
            numbers,
        }
    }

    /// Quotes a job.
    #[inline(never)]
    pub fn quote(&self, job: &[u8]) -> Told {
        let mut new: HashMap<&[u8], u32> = HashMap::new();
        let mut recipe = Vec::new();
        let mut new_bytes = 0;
        for chunk in chunks(self.window, job) {
            let next = (self.numbers.len() + new.len()) as u32;
            let number = match self.numbers.get(chunk) {
                Some(number) => *number,
                None => *new.entry(chunk).or_insert(next),
            };
            if number == next {
                new_bytes += chunk.len();
            }
            recipe.push(number);
        }
        (recipe, new_bytes)
    }

    /// Takes a job.
    #[inline(never)]
    pub fn take(&mut self, job: &[u8]) -> Told {
        let mut recipe = Vec::new();
        let mut new_bytes = 0;
        for chunk in chunks(self.window, job) {
            let number = match self.numbers.get(chunk) {
                Some(number) => *number,
                None => {
                    let next = self.numbers.len() as u32;
                    self.numbers.insert(chunk.to_vec(), next);
                    new_bytes += chunk.len();
                    next
                }
            };
            recipe.push(number);
        }
        (recipe, new_bytes)
    }

    /// Removes the chunks that the take of a job has added to so many, if it has been taken.
    pub fn undo(&mut self, count: u32, job: &[u8]) {
        if self.numbers.len() == count as usize {
            return;
        }
        for chunk in chunks(self.window, job) {
            if self
                .numbers
                .get(chunk)
                .is_some_and(|number| *number >= count)
            {
                self.numbers.remove(chunk);
            }
        }
    }
}

/// The chunks of a job.
fn chunks(window: usize, job: &[u8]) -> impl Iterator<Item = &[u8]> {
    let mut rest = job;
    std::iter::from_fn(move || {
        if rest.is_empty() {
            return None;
        }
        let (chunk, after) = rest.split_at(first_chunk(window, rest).0);
        rest = after;
        Some(chunk)
    })
}
