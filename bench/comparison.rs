//! The comparison of quotes, takes, looks and rebuildings.

use crate::agreement::{agree, Sequence};
#[cfg(before)]
use crate::before;
use crate::interface::{
    Answer, Head, ACCEPTED, CHAINS, DIRECTORY_LIMIT, JOB_LIMIT, POOL_LIMIT, RECIPE_LIMIT,
    WINDOW_LIMIT,
};
use crate::plain::index::{chain_of, END};
use crate::plain::store::head_refused;
use crate::store::Store;
use crate::{library, plain};

/// What a quote or a take tells, and what it leaves: the refusal, the answer, the store and the recipe.
type Left = (u32, Answer, Store, Vec<u32>);

type Quote = fn(&Head, &[u8], &[u32], &[u32], &mut [u32], &[u8], &mut Answer) -> u32;
type Take = fn(&mut Head, &mut [u8], &mut [u32], &mut [u32], &mut [u32], &[u8], &mut Answer) -> u32;
type Look = fn(&Head, &[u8], &[u32], u32, &mut [u64; 2]) -> u32;
type Rebuild = fn(&Head, &[u8], &[u32], &[u32], &mut [u8], &mut u64) -> u32;

const QUOTES: [(&str, Quote); 2] = [
    ("library", library::quote),
    ("plain Rust", plain::store::quote),
];
const TAKES: [(&str, Take); 2] = [
    ("library", library::take),
    ("plain Rust", plain::store::take),
];
const LOOKS: [(&str, Look); 2] = [
    ("library", library::look),
    ("plain Rust", plain::store::look),
];
const REBUILDINGS: [(&str, Rebuild); 2] = [
    ("library", library::rebuild),
    ("plain Rust", plain::rebuild::rebuild),
];

const STORES: usize = 50_000;
const JOBS: usize = 3;

/// Compares quotes, takes, looks and rebuildings over small stores of any contents, and over memory at its limits, in which
/// every ground of a store holds.
pub fn compare_small_stores() {
    let mut sequence = Sequence(0x9e37_79b9_7f4a_7c15);
    for _ in 0..STORES {
        let mut store = any_store(&mut sequence);
        let mut recipe = any_numbers(&mut sequence, 16);
        for _ in 0..JOBS {
            let job = sequence.job(40);
            compare_admissions(&mut store, &mut recipe, &job);
            store = any_index(&mut sequence, store);
            hold_twice(&mut sequence, &mut store);
        }
        let used = sequence.below(recipe.len() as u64 + 1) as usize;
        compare_looks(&store, sequence.below(8) as u32);
        compare_rebuildings(&store, &recipe[..used], sequence.below(80) as usize);
    }
    compare_at_limits();
}

/// Fewer than `bound` numbers below 8.
fn any_numbers(sequence: &mut Sequence, bound: u64) -> Vec<u32> {
    (0..sequence.below(bound))
        .map(|_| sequence.below(8) as u32)
        .collect()
}

/// A store of any contents, whose head is mostly that of a fresh one.
fn any_store(sequence: &mut Sequence) -> Store {
    let window = sequence.one_of(&[0, 1, 1, 1, 2, 2, 3, 16, WINDOW_LIMIT, WINDOW_LIMIT + 1]);
    let mut head = Head::fresh(window);
    if sequence.below(4) == 0 {
        head.chunks = sequence.below(4) as u32;
        head.filled = sequence.below(8) as u32;
    }
    let pool = sequence.job(80);
    let store = Store::new(head, pool, any_numbers(sequence, 24));
    any_index(sequence, store)
}

/// A store that in some cases has another index: with its chunks in another order, with any number in it, with two heads
/// swapped, or of another length.
fn any_index(sequence: &mut Sequence, mut store: Store) -> Store {
    let fits = !head_refused(&store.head, &store.pool, &store.directory);
    let chain = sequence.below(CHAINS as u64) as usize;
    let place = sequence.one_of(&[chain, CHAINS, CHAINS + 1, CHAINS + 2]);
    match sequence.below(16) {
        0 | 1 if fits => return store.reversed(),
        2 | 3 if place < store.index.len() => {
            store.index[place] = sequence.one_of(&[0, 1, 2, 3, store.head.chunks, END - 1, END]);
        }
        4 if fits && store.head.chunks > 0 => {
            let first = chain_of(store.chunk(0));
            store.index.swap(chain, first);
        }
        5 => store.index.truncate(CHAINS),
        6 => store.index.push(END),
        _ => {}
    }
    store
}

/// Adds the first chunk of a store once more in some cases, if there is room.
fn hold_twice(sequence: &mut Sequence, store: &mut Store) {
    let Store { head, pool, .. } = &*store;
    let fits = !head_refused(head, pool, &store.directory);
    if !fits || head.chunks == 0 || sequence.below(8) > 0 {
        return;
    }
    let (chunk, entry) = (store.chunk(0).to_vec(), 2 * head.chunks as usize);
    let start = head.filled as usize;
    let end = start + chunk.len();
    if entry + 2 <= store.directory.len() && end <= store.pool.len() {
        store.pool[start..end].copy_from_slice(&chunk);
        store.directory[entry..entry + 2].copy_from_slice(&[start as u32, chunk.len() as u32]);
        store.head.chunks += 1;
        store.head.filled = end as u32;
        *store = store.clone().entering(0..store.head.chunks);
    }
}

/// Compares what the quotes and the takes of a job tell and leave, and keeps what the takes leave. Gives what they tell.
pub fn compare_admissions(store: &mut Store, recipe: &mut Vec<u32>, job: &[u8]) -> Answer {
    let Head { window, chunks, .. } = store.head;
    let what = |which| format!("{which} at window {window}, after {chunks} chunks");
    let quotes = QUOTES.map(|(name, quote)| (name, run_quote(quote, store, recipe, job)));
    let quoted = agree(|| what("quotes"), quotes);
    let takes = TAKES.map(|(name, take)| (name, run_take(take, store, recipe, job)));
    let taken = agree(|| what("takes"), takes);
    #[cfg(before)]
    {
        let before = run_quote(before::quote, store, recipe, job);
        compare_before(|| what("quotes"), &quoted, before);
        let before = run_take(before::take, store, recipe, job);
        compare_before(|| what("takes"), &taken, before);
    }
    let (refusal, answer, same, numbers) = quoted;
    let unchanged = [("the store", &*store), ("what a quote leaves", &same)];
    agree(|| what("quote"), unchanged);
    if refusal != ACCEPTED {
        let unchanged = [("the store", &*store), ("what it leaves", &taken.2)];
        agree(|| what("refused take"), unchanged);
    }
    (*store, *recipe) = (taken.2, taken.3);
    let told = [
        ("quote", (refusal, answer, &numbers)),
        ("take", (taken.0, taken.1, &*recipe)),
    ];
    agree(|| what("pair"), told);
    answer
}

/// Compares what the version before tells and leaves.
#[cfg(before)]
fn compare_before(what: impl Fn() -> String, now: &Left, before: Left) {
    agree(what, [("library", now), (before::NAME, &before)]);
}

/// An answer that no call leaves.
const UNTOLD: Answer = Answer {
    counts: [1; 6],
    saving: 1,
};

/// What a quote tells and leaves.
fn run_quote(quote: Quote, store: &Store, recipe: &[u32], job: &[u8]) -> Left {
    let (store, mut recipe, mut answer) = (store.clone(), recipe.to_vec(), UNTOLD);
    let refusal = quote(
        &store.head,
        &store.pool,
        &store.directory,
        &store.index,
        &mut recipe,
        job,
        &mut answer,
    );
    (refusal, answer, store, recipe)
}

/// What a take tells and leaves.
fn run_take(take: Take, store: &Store, recipe: &[u32], job: &[u8]) -> Left {
    let (mut store, mut recipe, mut answer) = (store.clone(), recipe.to_vec(), UNTOLD);
    let refusal = take(
        &mut store.head,
        &mut store.pool,
        &mut store.directory,
        &mut store.index,
        &mut recipe,
        job,
        &mut answer,
    );
    (refusal, answer, store, recipe)
}

/// Compares what the looks at a chunk tell.
pub fn compare_looks(store: &Store, number: u32) {
    let results = LOOKS.map(|(name, look)| {
        let mut stretch = [1, 1];
        let refusal = look(
            &store.head,
            &store.pool,
            &store.directory,
            number,
            &mut stretch,
        );
        (name, (refusal, stretch))
    });
    agree(
        || format!("look at chunk {number} of {}", store.head.chunks),
        results,
    );
}

/// Compares what the rebuildings tell and leave in an output of some length, which is given back.
pub fn compare_rebuildings(store: &Store, recipe: &[u32], length: usize) -> Vec<u8> {
    let Store {
        head,
        pool,
        directory,
        ..
    } = store;
    let results = REBUILDINGS.map(|(name, rebuild)| {
        let mut output = vec![0xaa; length];
        let mut written = 1;
        let refusal = rebuild(head, pool, directory, recipe, &mut output, &mut written);
        (name, (refusal, written, output))
    });
    let what = || {
        format!(
            "rebuilding, window {}, {} numbers",
            head.window,
            recipe.len()
        )
    };
    agree(what, results).2
}

/// Compares memory and jobs at their limits and past them, all of zeros.
fn compare_at_limits() {
    const AT: [usize; 4] = [POOL_LIMIT, DIRECTORY_LIMIT, RECIPE_LIMIT, JOB_LIMIT];
    for past in [
        [0, 0, 0, 0],
        [1, 0, 0, 0],
        [0, 2, 0, 0],
        [0, 0, 1, 0],
        [0, 0, 0, 1],
    ] {
        let [pool, directory, recipe, job] = [0, 1, 2, 3].map(|k| AT[k] + past[k]);
        let head = Head::fresh(WINDOW_LIMIT);
        let mut store = Store::new(head, vec![0; pool], vec![0; directory]);
        let mut recipe = vec![0; recipe];
        compare_admissions(&mut store, &mut recipe, &vec![0; job]);
        compare_looks(&store, 0);
        compare_rebuildings(&store, &recipe[recipe.len() - RECIPE_LIMIT..], JOB_LIMIT);
        compare_rebuildings(&store, &recipe, JOB_LIMIT);
    }
}
