//! Takes and quotes of label-like jobs: new ones, and revisions of jobs that are in the store.

use crate::agreement::agree;
#[cfg(before)]
use crate::before;
use crate::comparison::{self, compare_admissions};
use crate::interface::{Answer, Head, CHAINS, RECIPE_LIMIT};
use crate::plain::hash_store::HashStore;
use crate::store::{jobs, revision, Store};
use crate::table::{Axes, Contest, Report};
use crate::timing::{Contestant, Undo};
use crate::{library, plain, Inputs, Measure};
use std::hint::black_box;
use std::time::Duration;

/// The bytes of a job, and the window.
const JOBS: [(usize, u32); 5] = [
    (1 << 10, 4),
    (1 << 10, 16),
    (16 << 10, 16),
    (16 << 10, 64),
    (256 << 10, 64),
];
const STORES: [usize; 4] = [0, 1_000, 10_000, 50_000];

/// A job, the store that quotes and takes it, the heads of its index, and the store's chunks as a map.
pub struct Admission {
    pub store: Store,
    pub job: Vec<u8>,
    heads: Vec<u32>,
    map: HashStore,
}

impl Admission {
    fn new((store, job): (Store, Vec<u8>)) -> Self {
        let chunks = (0..store.head.chunks).map(|number| store.chunk(number));
        Self {
            heads: store.index[..CHAINS].to_vec(),
            map: HashStore::new(store.head.window, chunks),
            store,
            job,
        }
    }
}

/// Jobs, each with its store, and a recipe.
pub struct Case {
    pub jobs: Vec<Admission>,
    recipe: Vec<u32>,
}

impl Case {
    pub fn new(jobs: impl Iterator<Item = (Store, Vec<u8>)>) -> Self {
        Self {
            jobs: jobs.map(Admission::new).collect(),
            recipe: vec![0; RECIPE_LIMIT],
        }
    }

    /// The bytes of all jobs.
    fn bytes(&self) -> usize {
        self.jobs.iter().map(|admission| admission.job.len()).sum()
    }
}

/// A unit, and the figure in it for the nanoseconds of a turn.
type Unit = (&'static str, fn(&Case, f64) -> f64);

const MICROSECONDS_A_JOB: Unit = ("microseconds a job", |case, nanoseconds| {
    nanoseconds / 1000.0 / case.jobs.len() as f64
});
pub const NANOSECONDS_A_BYTE: Unit = ("nanoseconds a byte", |case, nanoseconds| {
    nanoseconds / case.bytes() as f64
});

const TAKES: &[Contestant<Case>] = &[
    ("library", |case| take_jobs(library::take, case)),
    ("plain Rust", |case| take_jobs(plain::store::take, case)),
    ("HashMap", take_by_map),
    #[cfg(before)]
    (before::NAME, |case| take_jobs(before::take, case)),
];
const QUOTES: &[Contestant<Case>] = &[
    ("library", |case| quote_jobs(library::quote, case)),
    ("plain Rust", |case| quote_jobs(plain::store::quote, case)),
    ("HashMap", quote_by_map),
    #[cfg(before)]
    (before::NAME, |case| quote_jobs(before::quote, case)),
];

/// Compares takes and quotes, and measures them.
pub fn prepare(inputs: &Inputs) -> Measure<'_> {
    let (axes, mut cases) = cases(inputs);
    comparison::compare_small_stores();
    cases.iter_mut().for_each(compare);
    cases.iter().for_each(compare_refusals);
    Box::new(move |time| {
        let mut report = Report::default();
        measure(&mut report, time, "", MICROSECONDS_A_JOB, &axes, &mut cases);
        report
    })
}

/// Measures takes, and then quotes. They share code, so in one contest the turns of one would train the branch predictor
/// for the other. `about` ends the titles.
pub fn measure(
    report: &mut Report,
    time: Duration,
    about: &str,
    (unit, figure): Unit,
    axes: &Axes,
    cases: &mut [Case],
) {
    let contests: [(_, _, Undo<Case>); 2] =
        [("Takes", TAKES, undo_takes), ("Quotes", QUOTES, |_| ())];
    for (name, contestants, undo) in contests {
        let contest = Contest {
            title: &format!("{name}{about}"),
            contestants,
            undo,
            unit,
            figure,
        };
        report.measure(time / 2, &contest, axes, cases);
    }
}

/// Jobs that are new to stores of some chunks, and revisions of jobs that are in them besides.
pub fn cases(inputs: &Inputs) -> (Axes, Vec<Case>) {
    let mut rows = Vec::new();
    let mut cases = Vec::new();
    for (size, window) in JOBS {
        let full = Store::filled(window, STORES[3], &inputs.filling);
        let jobs = jobs(inputs.label(), size);
        for chunks in STORES {
            let store = full.beginning(chunks, size);
            let new = jobs.iter().map(|job| (store.clone(), job.clone()));
            cases.push(Case::new(new));
        }
        for chunks in STORES {
            let store = full.beginning(chunks, 2 * size);
            let revisions = jobs.iter().map(|job| (store.after(job), revision(job)));
            cases.push(Case::new(revisions));
        }
        rows.push(format!("new, {} KiB, w = {window}", size >> 10));
        rows.push(format!("revision, {} KiB, w = {window}", size >> 10));
    }
    (Axes::new("chunks in the store", &STORES, &rows), cases)
}

/// Compares what the quotes and the takes of a case's jobs tell, and all that they leave in lent memory.
pub fn compare(case: &mut Case) {
    for Admission {
        store, job, map, ..
    } in &mut case.jobs
    {
        let mut recipe = case.recipe.clone();
        let [numbers, new_bytes, ..] =
            compare_admissions(&mut store.clone(), &mut recipe, job).counts;
        recipe.truncate(numbers as usize);
        let quoted = map.quote(job);
        let taken = map.take(job);
        map.undo(store.head.chunks, job);
        let told = [
            ("library", (recipe, new_bytes as usize)),
            ("quote by HashMap", quoted),
            ("take by HashMap", taken),
        ];
        let what = || format!("{} bytes after {} chunks", job.len(), store.head.chunks);
        agree(what, told);
    }
}

/// Compares refusals in the middle of a case's jobs: with half of the recipe, of the entries or of the pool bytes that a
/// job needs.
fn compare_refusals(case: &Case) {
    for Admission { store, job, .. } in &case.jobs {
        let mut after = store.clone();
        let numbers = after.take(job).len();
        let chunks = (store.head.chunks + after.head.chunks) / 2;
        let filled = (store.head.filled + after.head.filled) / 2;
        let [mut few_entries, mut few_bytes] = [store.clone(), store.clone()];
        few_entries.directory.truncate(2 * chunks as usize);
        few_entries.index.truncate(CHAINS + chunks as usize);
        few_bytes.pool.truncate(filled as usize);
        compare_admissions(&mut few_entries, &mut case.recipe.clone(), job);
        compare_admissions(&mut few_bytes, &mut case.recipe.clone(), job);
        compare_admissions(&mut store.clone(), &mut vec![0; numbers / 2], job);
    }
}

/// A turn: takes each job. Only a copy of the head moves on, and the heads of the index are put back after the turn, so
/// that each turn finds the store as it was: of pool, directory and links nothing past the head is read.
fn take_jobs(
    take: impl Fn(&mut Head, &mut [u8], &mut [u32], &mut [u32], &mut [u32], &[u8], &mut Answer) -> u32,
    case: &mut Case,
) {
    for Admission { store, job, .. } in &mut case.jobs {
        let mut head = store.head;
        let mut answer = Answer::default();
        let refusal = take(
            &mut head,
            &mut store.pool,
            &mut store.directory,
            &mut store.index,
            &mut case.recipe,
            job,
            &mut answer,
        );
        black_box((refusal, head.chunks, answer.saving));
    }
}

/// A turn: takes each job into its map. Copies of the new chunks and the recipe are allocated; the map itself has grown
/// in an earlier turn.
fn take_by_map(case: &mut Case) {
    for Admission { job, map, .. } in &mut case.jobs {
        black_box(map.take(job));
    }
}

/// What follows a turn of takes, untimed: the heads of each index are put back, and what was added to a map is removed.
fn undo_takes(case: &mut Case) {
    for admission in &mut case.jobs {
        admission.store.index[..CHAINS].copy_from_slice(&admission.heads);
        let chunks = admission.store.head.chunks;
        admission.map.undo(chunks, &admission.job);
    }
}

/// A turn: quotes each job.
fn quote_jobs(
    quote: impl Fn(&Head, &[u8], &[u32], &[u32], &mut [u32], &[u8], &mut Answer) -> u32,
    case: &mut Case,
) {
    for Admission { store, job, .. } in &case.jobs {
        let mut answer = Answer::default();
        let refusal = quote(
            &store.head,
            &store.pool,
            &store.directory,
            &store.index,
            &mut case.recipe,
            job,
            &mut answer,
        );
        black_box((refusal, answer.saving));
    }
}

/// A turn: quotes each job by its map.
fn quote_by_map(case: &mut Case) {
    for Admission { job, map, .. } in &case.jobs {
        black_box(map.quote(job));
    }
}
