//! Measures the library beside plain implementations of the same operations, after comparing their results.

mod admission;
mod agreement;
#[cfg(before)]
mod before;
mod chains;
mod comparison;
mod feeding;
mod growth;
#[path = "../include/hirunvel.rs"]
mod hirunvel;
mod interface;
mod library;
mod limits;
mod link;
mod plain;
mod rebuilding;
mod sse2;
mod store;
mod table;
mod timing;

use std::time::{Duration, Instant};
use table::Report;

/// The inputs that `inputs.py` writes: jobs by name, and label-like bytes that fill the stores.
pub struct Inputs {
    jobs: [(&'static str, Vec<u8>); 4],
    filling: Vec<u8>,
}

impl Inputs {
    fn read(folder: &str) -> Self {
        let read = |name| std::fs::read(format!("{folder}/{name}")).expect("an input");
        Self {
            jobs: ["random", "label", "zero", "rising"].map(|name| (name, read(name))),
            filling: read("filling"),
        }
    }

    /// The job of random bytes.
    fn random(&self) -> &[u8] {
        &self.jobs[0].1
    }

    /// The label-like job.
    fn label(&self) -> &[u8] {
        &self.jobs[1].1
    }
}

/// Measures a part of the run for a given time.
type Measure<'a> = Box<dyn FnOnce(Duration) -> Report + 'a>;

/// A part of the run: its name, what prepares it and compares its contestants' results, and the seconds to measure.
type Part = (&'static str, fn(&Inputs) -> Measure<'_>, u64);

const PARTS: [Part; 7] = [
    ("feeding", feeding::prepare, 45),
    ("limits", limits::prepare, 4),
    ("admission", admission::prepare, 60),
    ("rebuilding", rebuilding::prepare, 8),
    ("chains", chains::prepare, 10),
    ("growth", growth::prepare, 105),
    ("link", link::prepare, 0),
];

/// The arguments: the inputs' folder; then the parts to run, all if none is named; and `quick` for a tenth of the time.
fn main() {
    let start = Instant::now();
    let mut arguments = std::env::args().skip(1);
    let inputs = Inputs::read(&arguments.next().expect("the inputs' folder"));
    let (quick, names): (Vec<_>, Vec<_>) = arguments.partition(|name| name == "quick");
    let share = if quick.is_empty() { 1 } else { 10 };
    let chosen = |(name, ..): &&Part| names.is_empty() || names.iter().any(|other| other == name);
    let parts: Vec<_> = PARTS.iter().filter(chosen).collect();
    assert!(!parts.is_empty(), "no part has this name");
    let prepared: Vec<_> = parts.iter().map(|part| part.1(&inputs)).collect();
    println!("All contestants' results are the same. Ratios: 2.00 is twice as fast.");
    let times = parts.iter().map(|part| Duration::from_secs(part.2) / share);
    let reports: Vec<_> = prepared
        .into_iter()
        .zip(times)
        .map(|(measure, time)| measure(time))
        .collect();
    let ratios = reports.iter().flat_map(|report| &report.ratios);
    let figures = reports.iter().flat_map(|report| &report.figures);
    ratios.chain(figures).for_each(|table| println!("{table}"));
    if cfg!(before) {
        print_behind(&reports);
    }
    println!("\n{} seconds", start.elapsed().as_secs());
}

/// Prints the cases in which the library is behind the version before by more than a twentieth.
fn print_behind(reports: &[Report]) {
    let measured = || reports.iter().flat_map(|report| &report.to_before);
    let behind: Vec<_> = measured().filter(|(_, ratio)| *ratio < 0.95).collect();
    println!(
        "\nBehind the version before by more than a twentieth: {} of {} cases",
        behind.len(),
        measured().count()
    );
    for (case, ratio) in behind {
        println!("{ratio:.3}  {case}");
    }
}
