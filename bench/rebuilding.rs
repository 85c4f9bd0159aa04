//! The rebuilding of taken jobs, beside copying as many bytes.

use crate::admission;
use crate::agreement::agree;
use crate::comparison::compare_rebuildings;
use crate::interface::Head;
use crate::store::Store;
use crate::table::{megabytes_per_second, Contest, Report};
use crate::timing::Contestant;
use crate::{library, plain, Inputs, Measure};
use std::hint::black_box;

/// How often a turn goes over the jobs.
const PASSES: usize = 16;

/// A job, the store that has taken it, and the recipe.
struct Kept {
    job: Vec<u8>,
    store: Store,
    recipe: Vec<u32>,
}

/// Jobs to rebuild, and an output as long as one.
pub struct Case {
    jobs: Vec<Kept>,
    output: Vec<u8>,
}

impl Case {
    /// The jobs of a case of admission.
    pub fn new(case: &admission::Case) -> Self {
        let output = vec![0; case.jobs[0].job.len()];
        let keep = |admission: &admission::Admission| {
            let mut store = admission.store.clone();
            let job = admission.job.clone();
            let recipe = store.take(&job);
            Kept { job, store, recipe }
        };
        let jobs = case.jobs.iter().map(keep).collect();
        Self { jobs, output }
    }

    /// The bytes of a turn.
    pub fn bytes(&self) -> usize {
        PASSES * self.jobs.iter().map(|kept| kept.job.len()).sum::<usize>()
    }
}

pub const CONTESTANTS: [Contestant<Case>; 3] = [
    ("library", |case| rebuild_jobs(library::rebuild, case)),
    ("plain Rust", |case| {
        rebuild_jobs(plain::rebuild::rebuild, case)
    }),
    ("memcpy", copy_jobs),
];

/// Compares the rebuilt jobs, and measures their rebuilding.
pub fn prepare(inputs: &Inputs) -> Measure<'_> {
    let (axes, cases) = admission::cases(inputs);
    let mut cases: Vec<_> = cases.iter().map(Case::new).collect();
    cases.iter().for_each(compare);
    let contest = Contest {
        title: "Rebuilding",
        contestants: &CONTESTANTS,
        undo: |_| (),
        unit: "MB/s",
        figure: |case, nanoseconds| megabytes_per_second(case.bytes(), nanoseconds),
    };
    Box::new(move |time| {
        let mut report = Report::default();
        report.measure(time, &contest, &axes, &mut cases);
        report
    })
}

/// Compares the rebuilt jobs with each other and with the jobs.
pub fn compare(case: &Case) {
    for Kept { job, store, recipe } in &case.jobs {
        let rebuilt = compare_rebuildings(store, recipe, job.len());
        agree(
            || format!("rebuilding of {} bytes", job.len()),
            [("the job", job), ("library and plain Rust", &rebuilt)],
        );
    }
}

/// A turn: rebuilds each job.
fn rebuild_jobs(
    rebuild: impl Fn(&Head, &[u8], &[u32], &[u32], &mut [u8], &mut u64) -> u32,
    case: &mut Case,
) {
    for _ in 0..PASSES {
        for Kept { store, recipe, .. } in &case.jobs {
            let Store {
                head,
                pool,
                directory,
                ..
            } = store;
            let mut written = 0;
            let refusal = rebuild(
                head,
                pool,
                directory,
                recipe,
                &mut case.output,
                &mut written,
            );
            black_box((refusal, written, &case.output));
        }
    }
}

/// A turn: copies each job.
fn copy_jobs(case: &mut Case) {
    for _ in 0..PASSES {
        for Kept { job, .. } in &case.jobs {
            case.output.copy_from_slice(black_box(job));
            black_box(&case.output);
        }
    }
}
