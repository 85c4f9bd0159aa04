//! Stores of label-like chunks, and the label-like jobs that they take.

use crate::interface::{Answer, Head, ACCEPTED, CHAINS, DIRECTORY_LIMIT, RECIPE_LIMIT};
use crate::plain;
use crate::plain::index::{chain_of, enter, END};

/// The bytes of each job with which a store is filled.
const FILLING_JOB: usize = 16 << 10;

/// The jobs of a turn, and the most bytes of them unless one is longer.
const JOBS: usize = 4;
const JOB_BYTES: usize = 64 << 10;

/// A store, with room in pool and directory.
#[derive(Clone, PartialEq)]
pub struct Store {
    pub head: Head,
    pub pool: Vec<u8>,
    pub directory: Vec<u32>,
    pub index: Vec<u32>,
}

impl Store {
    /// A store with this memory and a fresh index.
    pub fn new(head: Head, pool: Vec<u8>, directory: Vec<u32>) -> Self {
        let index = vec![END; CHAINS + directory.len() / 2];
        Self {
            head,
            pool,
            directory,
            index,
        }
    }

    /// A store of so many chunks, from jobs of `filling`.
    pub fn filled(window: u32, chunks: usize, filling: &[u8]) -> Self {
        let pool = vec![0; filling.len()];
        let mut store = Self::new(Head::fresh(window), pool, vec![0; DIRECTORY_LIMIT]);
        let mut jobs = filling.chunks_exact(FILLING_JOB);
        while (store.head.chunks as usize) < chunks {
            store.take(jobs.next().expect("more bytes to fill the store"));
        }
        store.beginning(chunks, 0)
    }

    /// The first chunks of this store, with room for so many bytes more.
    pub fn beginning(&self, chunks: usize, room: usize) -> Self {
        let filled = match chunks {
            0 => 0,
            _ => self.directory[2 * chunks - 2] + self.directory[2 * chunks - 1],
        };
        let mut pool = self.pool[..filled as usize].to_vec();
        pool.resize(filled as usize + room, 0);
        let mut directory = self.directory[..2 * chunks].to_vec();
        directory.resize(DIRECTORY_LIMIT, 0);
        let head = Head {
            window: self.head.window,
            chunks: chunks as u32,
            filled,
        };
        Self::new(head, pool, directory).entering(0..chunks as u32)
    }

    /// This store with an index into which its chunks are entered in this order.
    pub fn entering(mut self, numbers: impl Iterator<Item = u32>) -> Self {
        self.index = vec![END; CHAINS + self.directory.len() / 2];
        for number in numbers {
            let chain = chain_of(self.chunk(number));
            enter(&mut self.index, chain, number);
        }
        self
    }

    /// This store with the lowest number first on each chain, where takes leave the highest.
    pub fn reversed(self) -> Self {
        let numbers = (0..self.head.chunks).rev();
        self.entering(numbers)
    }

    /// The chunk with this number.
    pub fn chunk(&self, number: u32) -> &[u8] {
        let [offset, length] = self.directory.as_chunks::<2>().0[number as usize];
        &self.pool[offset as usize..][..length as usize]
    }

    /// This store after the take of a job.
    pub fn after(&self, job: &[u8]) -> Self {
        let mut store = self.clone();
        store.take(job);
        store
    }

    /// Takes a job that the store has room for, and gives back its recipe.
    pub fn take(&mut self, job: &[u8]) -> Vec<u32> {
        let mut recipe = vec![0; RECIPE_LIMIT];
        let mut answer = Answer::default();
        let refusal = plain::store::take(
            &mut self.head,
            &mut self.pool,
            &mut self.directory,
            &mut self.index,
            &mut recipe,
            job,
            &mut answer,
        );
        assert_eq!(refusal, ACCEPTED, "a job is refused");
        recipe.truncate(answer.counts[0] as usize);
        recipe
    }
}

/// The jobs of a turn, of so many bytes each.
pub fn jobs(label: &[u8], size: usize) -> Vec<Vec<u8>> {
    let count = (JOB_BYTES / size).clamp(1, JOBS);
    let jobs = label.chunks_exact(size).take(count);
    jobs.map(<[u8]>::to_vec).collect()
}

/// A revision of a job: the first number of four digits or more after its middle is another.
pub fn revision(job: &[u8]) -> Vec<u8> {
    let mut revised = job.to_vec();
    let middle = job.len() / 2;
    let is_number = |digits: &[u8]| digits.iter().all(u8::is_ascii_digit);
    let number = job[middle..].windows(4).position(is_number);
    let from = middle + number.expect("a number in each job");
    for digit in revised[from..]
        .iter_mut()
        .take_while(|byte| byte.is_ascii_digit())
    {
        *digit = b'0' + (*digit - b'0' + 3) % 10;
    }
    revised
}
