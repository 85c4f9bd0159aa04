//! Feeding: the library's scanner beside plain Rust scanners, and its count of a whole job's chunks beside others.

use crate::agreement::{agree, Sequence};
#[cfg(before)]
use crate::before;
use crate::interface::{Fed, Scanner, ACCEPTED};
use crate::plain::{chunker, gear};
use crate::table::{megabytes_per_second, number, Axes, Contest, Report};
use crate::{library, sse2, Inputs, Measure};
use std::hint::black_box;
use std::time::Duration;

type Feed = fn(&mut Scanner, &[u8], &mut Fed) -> u32;
type Count = fn(u32, &[u8]) -> u64;

/// What a feed tells, and what it leaves: the refusal, the scanner and what it reports.
type Left = (u32, Scanner, Fed);

const FEEDS: [(&str, Feed); 3] = [
    ("library", library::feed),
    ("Algorithm 1", chunker::feed_1),
    ("Algorithm 2", chunker::feed_2),
];
const COUNTS: &[(&str, Count)] = &[
    ("library", library::chunk_count),
    ("Algorithm 1", chunker::chunk_count_1),
    ("Algorithm 2", chunker::chunk_count_2),
    ("SSE2", sse2::chunk_count),
    #[cfg(before)]
    (before::NAME, before::chunk_count),
];
const WINDOWS: [u32; 8] = [1, 2, 4, 8, 16, 32, 48, 64];

// Those of the table by size of the fed part.
const PART_WINDOWS: [u32; 5] = [4, 8, 16, 32, 64];
const PART_SIZES: [usize; 4] = [64, 512, 4096, 65536];

// Those of the small jobs: refused windows, and windows on both sides of each size of a block.
const SMALL_WINDOWS: [u32; 18] = [
    0, 1, 2, 3, 4, 5, 7, 8, 9, 15, 16, 17, 31, 32, 33, 63, 64, 65,
];
const SMALL_JOBS: usize = 500;

/// What no feed leaves in `fed`.
const UNTOLD: Fed = Fed {
    consumed: 1,
    cut: 1,
    place: u64::MAX,
    value: u64::MAX,
};

/// A job that is fed in parts of some size, each until it is consumed.
struct Case<'a> {
    name: &'a str,
    job: &'a [u8],
    window: u32,
    size: usize,
}

/// The cases of a job with some windows.
fn cases<'a>(
    name: &'a str,
    job: &'a [u8],
    windows: &'a [u32],
    size: usize,
) -> impl Iterator<Item = Case<'a>> {
    windows.iter().map(move |window| Case {
        name,
        job,
        window: *window,
        size,
    })
}

/// Compares all results, and measures the three tables.
pub fn prepare(inputs: &Inputs) -> Measure<'_> {
    let jobs = inputs.jobs.iter();
    let mut whole: Vec<_> = jobs
        .flat_map(|(name, job)| cases(name, job, &WINDOWS, job.len()))
        .collect();
    let sizes = PART_SIZES.iter();
    let mut parts: Vec<_> = sizes
        .flat_map(|size| cases("label", inputs.label(), &PART_WINDOWS, *size))
        .collect();
    for case in whole.iter().chain(&parts) {
        compare_feeds(case, Scanner::fresh(case.window));
        compare_counts(case.name, case.window, case.job);
    }
    compare_small_jobs();
    Box::new(move |time| {
        let mut report = Report::default();
        let axes = Axes::new("window", &WINDOWS, &inputs.jobs.each_ref().map(|job| job.0));
        let title = "Feeding once a chunk";
        measure_feeds(&mut report, title, time * 2 / 5, &axes, &mut whole);
        measure_counts(&mut report, time * 2 / 5, &axes, &mut whole);
        add_lengths(&mut report, &axes, &whole);
        let axes = Axes::new("bytes fed, window", &PART_WINDOWS, &PART_SIZES);
        let title = "Feeding label by parts";
        measure_feeds(&mut report, title, time / 5, &axes, &mut parts);
        report
    })
}

/// Feeds a case's job to a scanner and compares what each feed tells and leaves.
fn compare_feeds(case: &Case, mut scanner: Scanner) {
    let what = || format!("feeding {}, window {}", case.name, case.window);
    for part in case.job.chunks(case.size) {
        let mut rest = part;
        while !rest.is_empty() {
            let results = FEEDS.map(|(name, feed)| (name, run_feed(feed, scanner, rest)));
            let left = agree(what, results);
            #[cfg(before)]
            compare_before(what, &left, run_feed(before::feed, scanner, rest));
            let (refusal, moved, fed) = left;
            if refusal != ACCEPTED {
                return;
            }
            scanner = moved;
            rest = &rest[fed.consumed as usize..];
        }
    }
}

/// What a feed tells and leaves.
fn run_feed(feed: Feed, mut scanner: Scanner, part: &[u8]) -> Left {
    let mut fed = UNTOLD;
    let refusal = feed(&mut scanner, part, &mut fed);
    (refusal, scanner, fed)
}

/// Compares what the version before tells and leaves.
#[cfg(before)]
fn compare_before(what: impl Fn() -> String, now: &Left, before: Left) {
    agree(what, [("library", now), (before::NAME, &before)]);
}

/// Compares the numbers of chunks of a job.
fn compare_counts(name: &str, window: u32, job: &[u8]) {
    agree(
        || format!("chunks of {name}, window {window}, {} bytes", job.len()),
        COUNTS
            .iter()
            .map(|(name, count)| (*name, count(window, job))),
    );
}

/// Compares counts and feeds of small jobs, and feeds to scanners of any numbers. Of a job of up to 100 bytes the chunks
/// of every beginning are counted, which shows each cut's place.
fn compare_small_jobs() {
    let mut sequence = Sequence(0x2545_f491_4f6c_dd1d);
    for window in SMALL_WINDOWS {
        for _ in 0..SMALL_JOBS {
            let job = sequence.job(4 * u64::from(window) + 65);
            let from = if job.len() <= 100 { 0 } else { job.len() };
            for end in from..=job.len() {
                compare_counts("small job", window, &job[..end]);
            }
            let size = 1 + sequence.below(100) as usize;
            let case = Case {
                name: "small job",
                job: &job,
                window,
                size,
            };
            compare_feeds(&case, Scanner::fresh(window));
            compare_feeds(&case, any_scanner(&mut sequence, window));
        }
    }
}

/// A scanner of any numbers, mostly near the bounds of soundness.
fn any_scanner(sequence: &mut Sequence, window: u32) -> Scanner {
    let place = sequence.one_of(&[0, 1, 2, window, window + 1, 3 * window + 1, u32::MAX]);
    let beyond = sequence.one_of(&[0, 1, window / 2, window.saturating_sub(1), window]);
    Scanner {
        window,
        count: place.wrapping_add(beyond),
        place,
        value: sequence.one_of(&[0, 1, 2, 3, 255, 256, u32::MAX]),
    }
}

/// A turn: feeds the whole job.
fn feed_job(feed: impl Fn(&mut Scanner, &[u8], &mut Fed) -> u32, case: &Case) {
    let mut scanner = Scanner::fresh(case.window);
    let mut fed = Fed::default();
    let mut cuts = 0;
    for part in case.job.chunks(case.size) {
        let mut rest = part;
        while !rest.is_empty() {
            feed(&mut scanner, rest, &mut fed);
            rest = &rest[fed.consumed as usize..];
            cuts += fed.cut;
        }
    }
    black_box((cuts, scanner.count));
}

/// A turn: counts the chunks of the whole job.
fn count_chunks(count: Count, case: &Case) {
    black_box(count(black_box(case.window), black_box(case.job)));
}

/// Measures the scanners.
fn measure_feeds(
    report: &mut Report,
    title: &str,
    time: Duration,
    axes: &Axes,
    cases: &mut [Case],
) {
    let contest = Contest {
        title,
        contestants: &[
            ("library", |case: &mut Case| feed_job(library::feed, case)),
            ("plain Rust by Algorithm 1", |case| {
                feed_job(chunker::feed_1, case)
            }),
            ("plain Rust by Algorithm 2", |case| {
                feed_job(chunker::feed_2, case)
            }),
            #[cfg(before)]
            (before::NAME, |case| feed_job(before::feed, case)),
        ],
        undo: |_| (),
        unit: "MB/s",
        figure: |case, nanoseconds| megabytes_per_second(case.job.len(), nanoseconds),
    };
    report.measure(time, &contest, axes, cases);
}

/// Measures the counts of a whole job's chunks. Gear's chunks are others.
fn measure_counts(report: &mut Report, time: Duration, axes: &Axes, cases: &mut [Case]) {
    let contest = Contest {
        title: "Whole jobs",
        contestants: &[
            ("library", |case: &mut Case| {
                count_chunks(library::chunk_count, case)
            }),
            ("Algorithm 1", |case| {
                count_chunks(chunker::chunk_count_1, case)
            }),
            ("Algorithm 2", |case| {
                count_chunks(chunker::chunk_count_2, case)
            }),
            ("SSE2", |case| count_chunks(sse2::chunk_count, case)),
            ("Gear", |case| count_chunks(gear::chunk_count, case)),
            #[cfg(before)]
            (before::NAME, |case| count_chunks(before::chunk_count, case)),
        ],
        undo: |_| (),
        unit: "MB/s",
        figure: |case, nanoseconds| megabytes_per_second(case.job.len(), nanoseconds),
    };
    report.measure(time, &contest, axes, cases);
}

/// Adds how long the chunks are, and Gear's.
fn add_lengths(report: &mut Report, axes: &Axes, cases: &[Case]) {
    let counts: [(&str, Count); 2] = [
        ("", chunker::chunk_count_1),
        (", by Gear", gear::chunk_count),
    ];
    for (by, count) in counts {
        let title = format!("Bytes in a chunk, on average{by}");
        report.figures.push(axes.table(&title, |case| {
            let Case { job, window, .. } = cases[case];
            number(job.len() as f64 / count(window, job) as f64)
        }));
    }
}
