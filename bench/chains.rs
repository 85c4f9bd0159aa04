//! What the test of an index costs: quotes of a job of one byte into stores of some chunks, less such a quote into an empty
//! store. The rest is the test of the grounds 5 and 12, and one search along a chain.

use crate::comparison::compare_admissions;
use crate::interface::{Answer, Head};
use crate::store::Store;
use crate::table::{number, ratio, Axes, Report};
use crate::timing::{quartiles, Contestant};
use crate::{library, plain, Inputs, Measure};
use std::hint::black_box;
use std::time::Duration;

const WINDOWS: [u32; 3] = [4, 16, 64];

/// The chunks of a store. The first is empty.
const STORES: [usize; 4] = [0, 1_000, 10_000, 50_000];

/// Chains as takes leave them, the highest number first, and the other way round.
const ORDERS: [&str; 2] = ["as takes leave it", "reversed"];

const JOB: [u8; 1] = [b'^'];

/// The quotes of a turn.
const QUOTES: usize = 8;

const CONTESTANTS: [Contestant<Store>; 2] = [
    ("library", |store| quote_often(library::quote, store)),
    ("plain Rust", |store| {
        quote_often(plain::store::quote, store)
    }),
];

/// Compares the quotes, and measures them.
pub fn prepare(inputs: &Inputs) -> Measure<'_> {
    let mut stores = Vec::new();
    for window in WINDOWS {
        let full = Store::filled(window, STORES[3], &inputs.filling);
        let row = STORES.map(|chunks| full.beginning(chunks, 1));
        stores.extend(row.clone());
        stores.extend(row.map(Store::reversed));
    }
    for store in &stores {
        compare_admissions(&mut store.clone(), &mut vec![0], &JOB);
    }
    Box::new(move |time| measure(time, &mut stores))
}

/// A turn: quotes the job.
fn quote_often(
    quote: impl Fn(&Head, &[u8], &[u32], &[u32], &mut [u32], &[u8], &mut Answer) -> u32,
    store: &mut Store,
) {
    for _ in 0..QUOTES {
        let (mut recipe, mut answer) = ([0], Answer::default());
        let refusal = quote(
            &store.head,
            &store.pool,
            &store.directory,
            &store.index,
            &mut recipe,
            &JOB,
            &mut answer,
        );
        black_box((refusal, recipe, answer.saving));
    }
}

/// Measures, and gives the nanoseconds for each chunk and their ratio.
fn measure(time: Duration, stores: &mut [Store]) -> Report {
    let quartiles = quartiles(time, stores, &CONTESTANTS, |_| ());
    let columns = STORES.len() - 1;
    let a_chunk = |case: usize, which: usize| {
        let (row, column) = (case / columns, 1 + case % columns);
        let [empty, filled] = [0, column].map(|column| row * STORES.len() + column);
        let [empty, filled] = [empty, filled].map(|case| quartiles.nanoseconds[case][which]);
        (filled - empty) / (QUOTES * STORES[column]) as f64
    };
    let rows: Vec<_> = WINDOWS
        .iter()
        .flat_map(|window| ORDERS.map(|order| format!("w = {window}, {order}")))
        .collect();
    let axes = Axes::new("chunks in the store", &STORES[1..], &rows);
    let title = |about: &str| format!("Testing the index: {about}");
    let mut report = Report::default();
    report
        .ratios
        .push(axes.table(&title("library / plain Rust"), |case| {
            ratio(a_chunk(case, 1) / a_chunk(case, 0))
        }));
    for (which, (name, _)) in CONTESTANTS.iter().enumerate() {
        let about = format!(
            "{name}, nanoseconds a chunk, lower quartile of {} rounds",
            quartiles.rounds
        );
        report
            .figures
            .push(axes.table(&title(&about), |case| number(a_chunk(case, which))));
    }
    report
}
