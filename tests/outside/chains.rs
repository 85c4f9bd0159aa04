//! The chains of an index, taken apart so that one that takes do not leave can be made of them.

use crate::memory::Store;
use crate::model::index::{chain, CHAIN_END};
use crate::model::CHAINS;
use crate::random::Random;

/// A store whose index is changed, and the numbers that belong on each chain, in the order in which
/// they stand there.
pub struct Chains<'a> {
    pub random: &'a mut Random,
    pub store: Store,
    pub numbers: Vec<Vec<u32>>,
}

impl<'a> Chains<'a> {
    /// Begins with chains that are right, as takes leave them or in any order.
    pub fn new(random: &'a mut Random, store: &Store) -> Self {
        let store = store.clone().indexed();
        let mut numbers = vec![Vec::new(); CHAINS];
        for number in (0..store.chunks()).rev() {
            numbers[chain(store.chunk(number as usize))].push(number);
        }
        let mut chains = Chains {
            random,
            store,
            numbers,
        };
        if chains.random.once_in(2) {
            chains.shuffle();
        }
        chains
    }

    /// Puts each chain in any order.
    pub fn shuffle(&mut self) {
        for numbers in &mut self.numbers {
            for place in (1..numbers.len()).rev() {
                numbers.swap(place, self.random.below(place + 1));
            }
        }
        self.lay();
    }

    /// Writes the chains to the index.
    pub fn lay(&mut self) {
        for (chain, numbers) in self.numbers.iter().enumerate() {
            let mut place = chain;
            for &number in numbers {
                self.store.index[place] = number;
                place = CHAINS + number as usize;
            }
            self.store.index[place] = CHAIN_END;
        }
    }

    /// Where a chain ends: at its head, or at the link of its last chunk.
    pub fn end(&self, chain: usize) -> usize {
        match self.numbers[chain].last() {
            Some(&last) => CHAINS + last as usize,
            None => chain,
        }
    }

    /// Where the links of unused entries begin.
    pub fn unused(&self) -> usize {
        CHAINS + self.store.chunks() as usize
    }

    /// Any chunk and the chain that it belongs on, if there is a chunk.
    pub fn chunk(&mut self) -> Option<(u32, usize)> {
        let chunks = self.store.chunks() as usize;
        if chunks == 0 {
            return None;
        }
        let number = self.random.below(chunks);
        Some((number as u32, chain(self.store.chunk(number))))
    }

    /// A chain other than this one, in half of the cases one that has chunks, where there is one.
    pub fn another(&mut self, chain: usize) -> usize {
        match self.chunk() {
            Some((_, other)) if other != chain && self.random.once_in(2) => other,
            _ => (chain + 1 + self.random.below(CHAINS - 1)) % CHAINS,
        }
    }

    /// Takes any chunk off its chain. Gives it and the chain.
    pub fn remove(&mut self) -> Option<(u32, usize)> {
        let (number, chain) = self.chunk()?;
        self.numbers[chain].retain(|&other| other != number);
        self.lay();
        Some((number, chain))
    }
}
