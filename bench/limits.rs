//! The machine's limits: feeding random bytes beside reading and copying them, in cache and from memory.

use crate::interface::{Fed, Scanner};
use crate::table::{megabytes_per_second, Axes, Contest, Report};
use crate::timing::Contestant;
use crate::{library, Inputs, Measure};
use std::hint::black_box;

const WINDOW: u32 = 64;

/// Mebibytes that are in cache, and ones that are not.
const SIZES: [usize; 2] = [1, 64];

/// Bytes, and memory of the same length to which they are copied.
struct Case {
    bytes: Vec<u8>,
    copy: Vec<u8>,
}

const CONTESTANTS: [Contestant<Case>; 3] = [("library", feed), ("reading", read), ("memcpy", copy)];

/// Measures the three.
pub fn prepare(inputs: &Inputs) -> Measure<'_> {
    let mut cases = SIZES.map(|size| Case {
        bytes: inputs.jobs[0].1.repeat(size),
        copy: vec![0; size << 20],
    });
    let contest = Contest {
        title: "Feeding random bytes at w = 64",
        contestants: &CONTESTANTS,
        undo: |_| (),
        unit: "MB/s",
        figure: |case, nanoseconds| megabytes_per_second(case.bytes.len(), nanoseconds),
    };
    Box::new(move |time| {
        let axes = Axes::new("MiB", &SIZES, &["random"]);
        let mut report = Report::default();
        report.measure(time, &contest, &axes, &mut cases);
        report
    })
}

/// A turn: feeds the bytes, once a chunk.
fn feed(case: &mut Case) {
    let mut scanner = Scanner::fresh(WINDOW);
    let mut fed = Fed::default();
    let mut rest = &case.bytes[..];
    while !rest.is_empty() {
        library::feed(&mut scanner, rest, &mut fed);
        rest = &rest[fed.consumed as usize..];
    }
    black_box(scanner.count);
}

/// A turn: sums the bytes as 64-bit words.
fn read(case: &mut Case) {
    let words = case.bytes.as_chunks::<8>().0.iter();
    let words = words.map(|word| u64::from_ne_bytes(*word));
    black_box(words.fold(0, u64::wrapping_add));
}

/// A turn: copies the bytes.
fn copy(case: &mut Case) {
    case.copy.copy_from_slice(&case.bytes);
    black_box(&case.copy);
}
