//! Memory that is lent to a call, and the store that is made of it.

use crate::model::index;
use std::fmt;
use std::ops::{Deref, DerefMut};

/// The least number of guard elements on each side of lent memory.
const GUARDS: usize = 8;

/// The number of runs of equal elements that are printed.
const PRINTED_RUNS: usize = 1_000;

/// The number of equal elements that are printed as a run.
const SHORTEST_RUN: usize = 4;

/// Elements to lend, between guard elements that no call may change. Equality covers the guards.
#[derive(Clone, PartialEq, Eq)]
pub struct Lent<T> {
    cells: Vec<T>,
    start: usize,
}

/// Some guard elements.
fn guards<T: From<u8>>(number: usize) -> impl Iterator<Item = T> {
    (0xA0..).take(number).map(T::from)
}

impl<T: Copy + From<u8>> Lent<T> {
    /// These elements, with guards around them. There are more guards before some lengths than
    /// before others, so that bytes are lent at every alignment.
    pub fn new(elements: &[T]) -> Self {
        let start = GUARDS + elements.len() % GUARDS;
        let mut cells = Vec::with_capacity(start + elements.len() + GUARDS);
        cells.extend(guards::<T>(start));
        cells.extend_from_slice(elements);
        cells.extend(guards::<T>(GUARDS));
        Lent { cells, start }
    }

    /// The first elements only.
    pub fn first(&self, length: usize) -> Self {
        Lent::new(&self[..length.min(self.len())])
    }
}

impl<T> Deref for Lent<T> {
    type Target = [T];

    fn deref(&self) -> &[T] {
        &self.cells[self.start..self.cells.len() - GUARDS]
    }
}

impl<T> DerefMut for Lent<T> {
    fn deref_mut(&mut self) -> &mut [T] {
        let end = self.cells.len() - GUARDS;
        &mut self.cells[self.start..end]
    }
}

/// Prints the number of elements, then bytes as hexadecimal digits and other numbers in decimal, with
/// `41*12` for a run of twelve. Guards are printed where they were changed.
impl<T: Copy + PartialEq + From<u8> + fmt::Display + fmt::UpperHex> fmt::Debug for Lent<T> {
    fn fmt(&self, out: &mut fmt::Formatter<'_>) -> fmt::Result {
        write!(out, "{}:", self.len())?;
        print_runs(out, self)?;
        let intact = Lent::new(self);
        if self.cells != intact.cells {
            write!(out, " GUARDS CHANGED, before")?;
            print_runs(out, &self.cells[..self.start])?;
            write!(out, ", after")?;
            print_runs(out, &self.cells[self.cells.len() - GUARDS..])?;
        }
        Ok(())
    }
}

/// Prints elements, with one entry for each longer run of equal ones.
fn print_runs<T: PartialEq + fmt::Display + fmt::UpperHex>(
    out: &mut fmt::Formatter<'_>,
    elements: &[T],
) -> fmt::Result {
    for (index, run) in elements.chunk_by(|a, b| a == b).enumerate() {
        if index == PRINTED_RUNS {
            return write!(out, " and so on");
        }
        let element = if size_of::<T>() == 1 {
            format!(" {:02X}", run[0])
        } else {
            format!(" {}", run[0])
        };
        if run.len() < SHORTEST_RUN {
            write!(out, "{}", element.repeat(run.len()))?;
        } else {
            write!(out, "{element}*{}", run.len())?;
        }
    }
    Ok(())
}

/// A store: head (window, chunks, filled), pool, directory and index.
#[derive(Clone, PartialEq, Eq, Debug)]
pub struct Store {
    pub head: Lent<u32>,
    pub pool: Lent<u8>,
    pub directory: Lent<u32>,
    pub index: Lent<u32>,
}

impl Store {
    /// A store of these three with a fresh index.
    pub fn new(head: [u32; 3], pool: &[u8], directory: &[u32]) -> Self {
        Store {
            head: Lent::new(&head),
            pool: Lent::new(pool),
            directory: Lent::new(directory),
            index: Lent::new(&index::fresh(directory.len())),
        }
    }

    /// A store that holds these chunks one after another, with spare memory behind them and the index
    /// that takes of them leave.
    pub fn of_chunks(
        window: u32,
        chunks: &[Vec<u8>],
        spare_pool: &[u8],
        spare_directory: &[u32],
    ) -> Self {
        let mut pool = Vec::new();
        let mut directory = Vec::new();
        for chunk in chunks {
            directory.extend([pool.len() as u32, chunk.len() as u32]);
            pool.extend_from_slice(chunk);
        }
        let head = [window, chunks.len() as u32, pool.len() as u32];
        pool.extend_from_slice(spare_pool);
        directory.extend_from_slice(spare_directory);
        Store::new(head, &pool, &directory).indexed()
    }

    /// The store with the index that takes of its chunks leave. The head must fit pool and directory.
    pub fn indexed(mut self) -> Self {
        self.index = Lent::new(&index::fresh(self.directory.len()));
        (0..self.chunks() as usize).for_each(|number| index::enter(&mut self, number));
        self
    }

    /// The number of chunks that the head tells.
    pub fn chunks(&self) -> u32 {
        self.head[1]
    }

    /// The chunk with this number. The head must fit pool and directory.
    pub fn chunk(&self, number: usize) -> &[u8] {
        let (offset, length) = (self.directory[2 * number], self.directory[2 * number + 1]);
        &self.pool[offset as usize..][..length as usize]
    }
}
