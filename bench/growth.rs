//! How the cost of takes, quotes, rebuilding and looking grows with the job and with the store.

use crate::comparison::compare_looks;
use crate::interface::Head;
use crate::store::{jobs, Store};
use crate::table::{Axes, Contest, Report};
use crate::timing::Contestant;
use crate::{admission, library, plain, rebuilding, Inputs, Measure};
use std::hint::black_box;
use std::time::Duration;

const WINDOW: u32 = 64;
const JOBS: [usize; 6] = [1 << 10, 4 << 10, 16 << 10, 64 << 10, 256 << 10, 1 << 20];
const STORES: [usize; 6] = [0, 10, 100, 1_000, 10_000, 50_000];

/// The windows of the jobs that have no chunk twice.
const NEW_WINDOWS: [u32; 2] = [16, WINDOW];

/// The looks of a turn.
const LOOKS: u32 = 64;

const LOOKING: [Contestant<Store>; 2] = [
    ("library", |store| look_often(library::look, store)),
    ("plain Rust", |store| look_often(plain::store::look, store)),
];

/// Compares the results, and measures the operations.
pub fn prepare(inputs: &Inputs) -> Measure<'_> {
    let full = Store::filled(WINDOW, STORES[5], &inputs.filling);
    let stores: Vec<_> = STORES[1..]
        .iter()
        .map(|chunks| full.beginning(*chunks, 0))
        .collect();
    let mut admissions = admissions(&full, inputs.label());
    let rebuildings: Vec<_> = admissions.iter().map(rebuilding::Case::new).collect();
    for store in &stores {
        looked_at(store.head).for_each(|number| compare_looks(store, number));
    }
    let mut all_new = all_new(inputs.random());
    admissions.iter_mut().for_each(admission::compare);
    all_new.iter_mut().for_each(admission::compare);
    rebuildings.iter().for_each(rebuilding::compare);
    Box::new(move |time| {
        let mut report = Report::default();
        measure_admissions(&mut report, time * 4 / 5, admissions, all_new);
        measure_rest(&mut report, time / 5, rebuildings, stores);
        report
    })
}

/// A case for each size of a job and of a store.
fn admissions(full: &Store, label: &[u8]) -> Vec<admission::Case> {
    let mut cases = Vec::new();
    for size in JOBS {
        let jobs = jobs(label, size);
        for chunks in STORES {
            let store = full.beginning(chunks, size);
            let jobs = jobs.iter().map(|job| (store.clone(), job.clone()));
            cases.push(admission::Case::new(jobs));
        }
    }
    cases
}

/// A case for each window and each size of a job of random bytes, which an empty store takes. No chunk comes twice.
fn all_new(random: &[u8]) -> Vec<admission::Case> {
    let mut cases = Vec::new();
    for window in NEW_WINDOWS {
        for size in JOBS {
            let store = Store::filled(window, 0, &[]).beginning(0, size);
            let jobs = jobs(random, size).into_iter();
            let all_new = jobs.inspect(|job| {
                let new_bytes = store.after(job).head.filled;
                assert_eq!(new_bytes as usize, size, "a chunk comes twice");
            });
            let case = admission::Case::new(all_new.map(|job| (store.clone(), job)));
            cases.push(case);
        }
    }
    cases
}

/// The chunks of a turn, from all over the store.
fn looked_at(head: Head) -> impl Iterator<Item = u32> {
    (0..LOOKS).map(move |look| look * head.chunks / LOOKS)
}

/// A turn: looks at some chunks.
fn look_often(look: impl Fn(&Head, &[u8], &[u32], u32, &mut [u64; 2]) -> u32, store: &mut Store) {
    let Store {
        head,
        pool,
        directory,
        ..
    } = store;
    for number in looked_at(*head) {
        let mut stretch = [0, 0];
        let refusal = look(head, pool, directory, number, &mut stretch);
        black_box((refusal, stretch));
    }
}

/// The names of the jobs' sizes.
fn sizes() -> [String; 6] {
    JOBS.map(|size| format!("{} KiB", size >> 10))
}

/// Measures takes and quotes.
fn measure_admissions(
    report: &mut Report,
    time: Duration,
    mut admissions: Vec<admission::Case>,
    mut all_new: Vec<admission::Case>,
) {
    let unit = admission::NANOSECONDS_A_BYTE;
    let axes = Axes::new("chunks in the store", &STORES, &sizes());
    let about = " as work grows, w = 64";
    admission::measure(report, time * 3 / 4, about, unit, &axes, &mut admissions);
    let windows = NEW_WINDOWS.map(|window| format!("w = {window}"));
    let axes = Axes::new("bytes of the job", &sizes(), &windows);
    let about = " of jobs of new chunks alone, empty store";
    admission::measure(report, time / 4, about, unit, &axes, &mut all_new);
}

/// Measures rebuilding and looking.
fn measure_rest(
    report: &mut Report,
    time: Duration,
    mut rebuildings: Vec<rebuilding::Case>,
    mut stores: Vec<Store>,
) {
    let contest = Contest {
        title: "Rebuilding as work grows, w = 64",
        contestants: &rebuilding::CONTESTANTS,
        undo: |_| (),
        unit: "nanoseconds a byte",
        figure: |case, nanoseconds| nanoseconds / case.bytes() as f64,
    };
    let axes = Axes::new("chunks in the store", &STORES, &sizes());
    report.measure(time * 3 / 4, &contest, &axes, &mut rebuildings);
    let contest = Contest {
        title: "Looking",
        contestants: &LOOKING,
        undo: |_| (),
        unit: "nanoseconds a look",
        figure: |_, nanoseconds| nanoseconds / f64::from(LOOKS),
    };
    let axes = Axes::new("chunks in the store", &STORES[1..], &["a look"]);
    report.measure(time / 4, &contest, &axes, &mut stores);
}
