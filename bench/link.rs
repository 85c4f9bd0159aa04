//! What jobs of labels cost on the link by window: their new bytes and the packets of their recipes.

use crate::interface::{Answer, Head, ACCEPTED, DIRECTORY_LIMIT, RECIPE_LIMIT};
use crate::store::{revision, Store};
use crate::table::{number, Axes, Report};
use crate::{library, Inputs, Measure};

const WINDOWS: [u32; 8] = [1, 2, 4, 8, 16, 32, 48, 64];

/// The labels of a job, and the most jobs of a mean.
const LABELS: [usize; 5] = [1, 4, 16, 64, 256];
const JOBS: usize = 200;

/// Computes the means. Nothing is timed.
pub fn prepare(inputs: &Inputs) -> Measure<'_> {
    let labels = labels(inputs.label());
    Box::new(move |_| report(&labels))
}

/// The whole labels among label-like bytes.
fn labels(label: &[u8]) -> Vec<&[u8]> {
    let find = |part: &[u8], text: &[u8]| part.windows(text.len()).position(|here| here == text);
    let mut labels = Vec::new();
    let mut rest = label;
    while let Some(start) = find(rest, b"^XA") {
        rest = &rest[start..];
        let Some(last) = find(rest, b"^XZ\n") else {
            break;
        };
        let (label, after) = rest.split_at(last + 4);
        labels.push(label);
        rest = after;
    }
    labels
}

/// The tables of new jobs and of revisions.
fn report(labels: &[&[u8]]) -> Report {
    let mut rows = Vec::new();
    let mut costs = Vec::new();
    for count in LABELS {
        let jobs = labels.chunks_exact(count).take(JOBS).map(<[_]>::concat);
        let jobs: Vec<Vec<u8>> = jobs.collect();
        let mean = |sum: usize| sum as f64 / jobs.len() as f64;
        rows.push(format!("{count}, {:.0} bytes", mean(jobs.concat().len())));
        for window in WINDOWS {
            let pairs = jobs.iter().map(|job| job_costs(window, job));
            let (new, revised) =
                pairs.fold((0, 0), |sums, pair| (sums.0 + pair.0, sums.1 + pair.1));
            costs.push((mean(new), mean(revised)));
        }
    }
    let axes = Axes::new("labels, window", &WINDOWS, &rows);
    let title = |jobs| format!("Bytes on the link of {jobs}, mean");
    Report {
        figures: vec![
            axes.table(&title("a new job"), |case| number(costs[case].0)),
            axes.table(&title("its revision"), |case| number(costs[case].1)),
        ],
        ..Report::default()
    }
}

/// What a job costs as the first of a store, and what its revision costs after it.
fn job_costs(window: u32, job: &[u8]) -> (usize, usize) {
    let pool = vec![0; 2 * job.len()];
    let mut store = Store::new(Head::fresh(window), pool, vec![0; DIRECTORY_LIMIT]);
    let mut recipe = vec![0; RECIPE_LIMIT];
    let mut cost = |job: &[u8]| {
        let mut answer = Answer::default();
        let refusal = library::take(
            &mut store.head,
            &mut store.pool,
            &mut store.directory,
            &mut store.index,
            &mut recipe,
            job,
            &mut answer,
        );
        assert_eq!(refusal, ACCEPTED, "a job is refused");
        (job.len() as i64 - answer.saving) as usize
    };
    (cost(job), cost(&revision(job)))
}
