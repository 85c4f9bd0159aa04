//! Checking a case and, where it fails, finding a smaller case that fails too.

use crate::memory::{Lent, Store};
use crate::model::index::{self, CHAIN_END};
use crate::model::store::head_fits;
use crate::model::CHAINS;
use crate::tally::Tally;
use std::fmt::Debug;
use std::time::{Duration, Instant};

/// How long smaller cases are looked for.
const PATIENCE: Duration = Duration::from_secs(10);

/// Smaller cases to try in turn.
pub type Smaller<'a, C> = Box<dyn Iterator<Item = C> + 'a>;

/// Something to check that can be made smaller.
pub trait Case: Clone + Debug {
    /// Checks the case, or tells what is wrong.
    fn check(&self, tally: &mut Tally) -> Result<(), String>;

    /// Cases that are smaller than this one.
    fn smaller(&self) -> Smaller<'_, Self>;
}

/// Checks a case. Where it fails, gives a report of the smallest failing case that was found.
pub fn hold<C: Case>(case: &C, tally: &mut Tally) -> Result<(), String> {
    match case.check(tally) {
        Ok(()) => Ok(()),
        Err(fault) => Err(shrink(case, fault)),
    }
}

/// Makes a failing case smaller for as long as it fails, and reports it.
pub fn shrink<C: Case>(case: &C, fault: String) -> String {
    let start = Instant::now();
    let mut smallest = (case.clone(), fault);
    loop {
        let found = smallest
            .0
            .smaller()
            .take_while(|_| start.elapsed() < PATIENCE)
            .find_map(|smaller| match smaller.check(&mut Tally::default()) {
                Ok(()) => None,
                Err(fault) => Some((smaller, fault)),
            });
        match found {
            Some(smaller) => smallest = smaller,
            None => return report(&smallest.0, smallest.1),
        }
    }
}

/// The fault with the whole case, which the fault of a single call already shows.
fn report<C: Case>(case: &C, fault: String) -> String {
    let whole = format!("{case:#?}");
    if fault.contains(&whole) {
        fault
    } else {
        format!("{fault}\nthe whole case: {whole}")
    }
}

/// The elements without one block of them, for blocks from half of them down to a single one.
pub fn without_block<T: Clone>(elements: &[T]) -> impl Iterator<Item = Vec<T>> + '_ {
    let length = elements.len();
    let halves = std::iter::successors(Some(length.div_ceil(2)), |&size| {
        (size > 1).then_some(size / 2)
    });
    halves.filter(|&size| size > 0).flat_map(move |size| {
        (0..length).step_by(size).map(move |start| {
            let end = (start + size).min(length);
            [&elements[..start], &elements[end..]].concat()
        })
    })
}

/// Bytes with a block left out, then bytes with one of them made smaller.
pub fn smaller_bytes(bytes: &[u8]) -> impl Iterator<Item = Vec<u8>> + '_ {
    let lower = (0..bytes.len()).flat_map(move |index| {
        let byte = bytes[index];
        [0, byte / 2, byte.saturating_sub(1)]
            .into_iter()
            .filter(move |&other| other < byte)
            .map(move |other| {
                let mut lower = bytes.to_vec();
                lower[index] = other;
                lower
            })
    });
    without_block(bytes).chain(lower)
}

/// Lent memory with fewer elements at its end.
pub fn shorter<T: Copy + From<u8>>(memory: &Lent<T>) -> impl Iterator<Item = Lent<T>> + '_ {
    let length = memory.len();
    [
        0,
        length / 2,
        length.saturating_sub(2),
        length.saturating_sub(1),
    ]
    .into_iter()
    .filter(move |&shorter| shorter < length)
    .map(|shorter| memory.first(shorter))
}

/// Stores with one chunk less, less pool, less directory or a simpler index.
pub fn smaller_stores(store: &Store) -> impl Iterator<Item = Store> + '_ {
    let entries = (store.chunks() as usize).min(store.directory.len() / 2);
    let fewer = (0..entries).map(|number| without_chunk(store, number));
    let pools = shorter(&store.pool).map(|pool| Store {
        pool,
        ..store.clone()
    });
    let directories = shorter(&store.directory).map(|directory| Store {
        index: index_for(store, directory.len()),
        directory,
        ..store.clone()
    });
    fewer
        .chain(pools)
        .chain(directories)
        .chain(simpler_indexes(store))
}

/// The index without the links of the entries that a directory of this length has no longer.
fn index_for(store: &Store, directory: usize) -> Lent<u32> {
    let links = store.directory.len() / 2 - directory / 2;
    store.index.first(store.index.len().saturating_sub(links))
}

/// Stores whose index is the one that takes leave, has one number more of it or, where the length is
/// not right, is shorter.
fn simpler_indexes(store: &Store) -> impl Iterator<Item = Store> + '_ {
    let as_takes_leave_it = head_fits(store).then(|| store.clone().indexed());
    let whole = as_takes_leave_it.filter(|other| other != store);
    let numbers = whole
        .as_ref()
        .map_or(Vec::new(), |other| other.index.to_vec());
    let different = move |&(place, number): &(usize, u32)| {
        store.index.get(place).is_some_and(|&held| held != number)
    };
    let one = numbers.into_iter().enumerate().filter(different);
    let one = one.map(|(place, number)| {
        let mut simpler = store.clone();
        simpler.index[place] = number;
        simpler
    });
    let wrong_length = store.index.len() != index::length(store.directory.len());
    let shorter = shorter(&store.index).filter(move |_| wrong_length);
    let shorter = shorter.map(|index| Store {
        index,
        ..store.clone()
    });
    whole.into_iter().chain(shorter).chain(one)
}

/// The store without a chunk: its entry and its bytes are left out, the later entries moved up, and its
/// chain goes on with the chunk after it.
fn without_chunk(store: &Store, number: usize) -> Store {
    let mut directory = store.directory.to_vec();
    let mut pool = store.pool.to_vec();
    let (offset, length) = (directory[2 * number], directory[2 * number + 1]);
    directory.drain(2 * number..2 * number + 2);
    let start = (offset as usize).min(pool.len());
    let end = (offset as usize + length as usize).min(pool.len());
    pool.drain(start..end);
    for entry in directory[2 * number..]
        .chunks_exact_mut(2)
        .take(store.chunks() as usize - number - 1)
    {
        entry[0] = entry[0].wrapping_sub(length);
    }
    let head = [
        store.head[0],
        store.head[1] - 1,
        store.head[2].wrapping_sub(length),
    ];
    Store {
        index: index_without(store, number),
        ..Store::new(head, &pool, &directory)
    }
}

/// The index without a chunk. Later chunks have a number less.
fn index_without(store: &Store, number: usize) -> Lent<u32> {
    let mut index = store.index.to_vec();
    if index.len() <= CHAINS + number {
        return store.index.clone();
    }
    let after = index.remove(CHAINS + number);
    for held in &mut index {
        if *held == number as u32 {
            *held = after;
        }
        if *held > number as u32 && *held != CHAIN_END {
            *held -= 1;
        }
    }
    Lent::new(&index)
}
