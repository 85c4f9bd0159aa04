//! Indexes that takes need not leave: some are accepted all the same, the others are refused.

use crate::chains::Chains;
use crate::memory::{Lent, Store};
use crate::model::index::CHAIN_END;
use crate::model::store::head_fits;
use crate::model::{ACCEPTED, CHAINS, INDEX, INDEX_LENGTH};
use crate::random::Random;

/// A way to make an index. It gives nothing where a store has too few chunks for it.
type Forge = fn(&mut Chains) -> Option<()>;

/// A kind of index: its description in the report, the refusal that it leads to, and how it is made.
pub type Kind = (&'static str, u32, Forge);

/// The number of kinds, of which the first are accepted.
pub const KINDS: usize = 13;
const ACCEPTED_KINDS: usize = 3;

/// The kinds.
pub const ALL: [Kind; KINDS] = [
    ("as takes leave them", ACCEPTED, as_takes_leave_it),
    ("in another order", ACCEPTED, in_another_order),
    ("with any unused links", ACCEPTED, any_unused_links),
    ("too short", INDEX_LENGTH, too_short),
    ("too long", INDEX_LENGTH, too_long),
    ("with a ring", INDEX, ring),
    ("with a link to another chain", INDEX, cross_link),
    ("with a number that no chunk has", INDEX, no_chunk),
    ("without a chunk", INDEX, missing),
    ("with one chunk twice and without another", INDEX, twice),
    ("with a chunk on another chain", INDEX, other_chain),
    ("with another head", INDEX, other_head),
    ("with two heads swapped", INDEX, heads_swapped),
];

/// The store with an index of this kind, where it can have one. The head must fit.
pub fn forge(kind: &Kind, random: &mut Random, store: &Store) -> Option<Store> {
    let mut chains = Chains::new(random, store);
    kind.2(&mut chains)?;
    Some(chains.store)
}

/// A store whose head fits with an index that is accepted.
pub fn accepted(random: &mut Random, store: &Store) -> Store {
    let kind = random.pick(&ALL[..ACCEPTED_KINDS]);
    forge(&kind, random, store).unwrap_or(store.clone().indexed())
}

/// A store that may be damaged with an index of any kind. Where its head does not fit, only the
/// index's length may be right.
pub fn any(random: &mut Random, store: &Store) -> Store {
    if head_fits(store) {
        if random.once_in(2) {
            return accepted(random, store);
        }
        let kind = random.pick(&ALL);
        return forge(&kind, random, store).unwrap_or(store.clone().indexed());
    }
    let length = match random.below(2) {
        0 => random.below(2 * CHAINS),
        _ => CHAINS + store.directory.len() / 2,
    };
    Store {
        index: Lent::new(&random.numbers(length)),
        ..store.clone()
    }
}

fn as_takes_leave_it(chains: &mut Chains) -> Option<()> {
    chains.store = chains.store.clone().indexed();
    Some(())
}

fn in_another_order(chains: &mut Chains) -> Option<()> {
    let as_takes_leave_it = chains.store.clone().indexed();
    chains.shuffle();
    (chains.store != as_takes_leave_it).then_some(())
}

fn any_unused_links(chains: &mut Chains) -> Option<()> {
    let unused = chains.unused();
    let numbers = chains.random.numbers(chains.store.index.len() - unused);
    chains.store.index[unused..].copy_from_slice(&numbers);
    (!numbers.is_empty()).then_some(())
}

fn too_short(chains: &mut Chains) -> Option<()> {
    let longest = chains.store.index.len() - 1;
    let (unused, any) = (chains.unused(), chains.random.below(longest));
    let length = chains.random.pick(&[0, any, CHAINS, unused, longest]);
    chains.store.index = chains.store.index.first(length.min(longest));
    Some(())
}

fn too_long(chains: &mut Chains) -> Option<()> {
    let any = chains.random.below(40);
    let more = chains
        .random
        .pick(&[0, any, chains.store.directory.len() / 2]);
    let more = match chains.random.below(2) {
        0 => vec![CHAIN_END; 1 + more],
        _ => chains.random.numbers(1 + more),
    };
    chains.store.index = Lent::new(&[&chains.store.index[..], &more].concat());
    Some(())
}

/// The end of a chain leads back to a chunk of it.
fn ring(chains: &mut Chains) -> Option<()> {
    let (number, own) = chains.chunk()?;
    let end = chains.end(own);
    chains.store.index[end] = number;
    Some(())
}

/// The end of a chain leads to a chunk of another one.
fn cross_link(chains: &mut Chains) -> Option<()> {
    let (number, own) = chains.chunk()?;
    let other = chains.another(own);
    let end = chains.end(other);
    chains.store.index[end] = number;
    Some(())
}

/// The head or the end of a chain holds a number that is not below chunks.
fn no_chunk(chains: &mut Chains) -> Option<()> {
    let entries = chains.store.directory.len() as u32 / 2;
    let chunks = chains.store.chunks();
    let any = chunks + chains.random.below((CHAIN_END - chunks) as usize) as u32;
    let numbers = [chunks, chunks + 1, entries, any, 1 << 31, CHAIN_END - 1];
    let chain = match chains.chunk() {
        Some((_, own)) if chains.random.once_in(2) => own,
        _ => chains.random.below(CHAINS),
    };
    let end = chains.end(chain);
    let place = chains.random.pick(&[chain, end]);
    chains.store.index[place] = chains.random.pick(&numbers);
    Some(())
}

fn missing(chains: &mut Chains) -> Option<()> {
    chains.remove()?;
    Some(())
}

/// As many steps lead to the ends of the chains as there are chunks.
fn twice(chains: &mut Chains) -> Option<()> {
    chains.remove()?;
    let (_, own) = chains.chunk()?;
    let last = *chains.numbers[own].last()?;
    let other = chains.another(own);
    let end = chains.end(other);
    chains.store.index[end] = last;
    Some(())
}

fn other_chain(chains: &mut Chains) -> Option<()> {
    let (number, own) = chains.remove()?;
    let other = chains.another(own);
    let place = chains.random.below(chains.numbers[other].len() + 1);
    chains.numbers[other].insert(place, number);
    chains.lay();
    Some(())
}

/// The head of a chain holds the number of another chunk, of its own chain or not, or none.
fn other_head(chains: &mut Chains) -> Option<()> {
    let (number, own) = chains.chunk()?;
    let other = chains.another(own);
    let head = chains.random.pick(&[own, other]);
    let is_first = chains.store.index[head] == number;
    chains.store.index[head] = if is_first { CHAIN_END } else { number };
    Some(())
}

fn heads_swapped(chains: &mut Chains) -> Option<()> {
    let (_, own) = chains.chunk()?;
    let other = chains.another(own);
    chains.store.index.swap(own, other);
    Some(())
}
