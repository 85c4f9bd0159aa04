//! The chunker by Algorithm 1 and Algorithm 2 of document 002. By the two conditions of its section 3.1 a job's last
//! byte is tested too, and only a larger byte ends the inner loop of Algorithm 2.

use crate::interface::{Fed, Scanner, ACCEPTED, UNSOUND, WINDOW, WINDOW_LIMIT};

/// The open chunk in a part: the next index, the largest byte so far, and the index of the byte that ends the chunk
/// unless a larger one comes.
struct Open {
    at: usize,
    max: u8,
    end: usize,
}

impl Open {
    /// A chunk that starts with a part's first byte.
    fn at_start(window: usize, part: &[u8]) -> Self {
        Self {
            at: 1,
            max: part[0],
            end: window,
        }
    }

    /// The chunk that a sound scanner has open, or starts, with a part that is not empty.
    #[inline(always)]
    fn of(scanner: &Scanner, part: &[u8]) -> Self {
        let window = scanner.window as usize;
        match scanner.count as usize {
            0 => Self::at_start(window, part),
            count => Self {
                at: 0,
                max: scanner.value as u8,
                end: scanner.place as usize + window - count - 1,
            },
        }
    }
}

/// Goes over a part and tells the length up to the cut, if the chunk ends in it. `open` gets the largest byte and the
/// end.
type Scan = fn(usize, &[u8], &mut Open) -> Option<usize>;

/// Algorithm 1: each byte is compared with the largest, then its index with the end.
#[inline(always)]
fn algorithm_1(window: usize, part: &[u8], open: &mut Open) -> Option<usize> {
    let Open {
        at,
        mut max,
        mut end,
    } = *open;
    let mut cut = None;
    for (i, &byte) in part.iter().enumerate().skip(at) {
        if byte <= max {
            if i == end {
                cut = Some(i + 1);
                break;
            }
        } else {
            max = byte;
            end = i + window;
        }
    }
    *open = Open { at, max, end };
    cut
}

/// Algorithm 2: the bytes up to the end are only compared with the largest.
#[inline(always)]
fn algorithm_2(window: usize, part: &[u8], open: &mut Open) -> Option<usize> {
    while open.at < part.len() {
        let stop = part.len().min(open.end + 1);
        let mut i = open.at;
        while i < stop && part[i] <= open.max {
            i += 1;
        }
        if i == stop {
            return (open.end < part.len()).then_some(stop);
        }
        *open = Open {
            at: i + 1,
            max: part[i],
            end: i + window,
        };
    }
    None
}

/// The first chunk of a job that is not empty, by Algorithm 2: its length, and the value of its maximum point if a cut
/// ends it.
pub fn first_chunk(window: usize, job: &[u8]) -> (usize, Option<u8>) {
    let mut open = Open::at_start(window, job);
    match algorithm_2(window, job, &mut open) {
        Some(length) => (length, Some(open.max)),
        None => (job.len(), None),
    }
}

/// The number of chunks of a job; 0 where the window is refused.
#[inline(always)]
fn chunk_count(scan: Scan, window: u32, job: &[u8]) -> u64 {
    if !(1..=WINDOW_LIMIT).contains(&window) {
        return 0;
    }
    let window = window as usize;
    let mut rest = job;
    let mut count = 0;
    while !rest.is_empty() {
        let cut = scan(window, rest, &mut Open::at_start(window, rest));
        rest = &rest[cut.unwrap_or(rest.len())..];
        count += 1;
    }
    count
}

/// The number of chunks by Algorithm 1.
#[inline(never)]
pub fn chunk_count_1(window: u32, job: &[u8]) -> u64 {
    chunk_count(algorithm_1, window, job)
}

/// The number of chunks by Algorithm 2.
#[inline(never)]
pub fn chunk_count_2(window: u32, job: &[u8]) -> u64 {
    chunk_count(algorithm_2, window, job)
}

/// Whether some feed can leave these numbers.
fn sound(scanner: &Scanner) -> bool {
    let [window, count, place, value] =
        [scanner.window, scanner.count, scanner.place, scanner.value].map(u64::from);
    (count, place, value) == (0, 0, 0)
        || (1..=count).contains(&place)
            && count < place + window
            && value <= 255
            && place <= value * window + 1
}

/// Moves a scanner on over a part, up to and including the byte that ends a chunk, or over the whole part.
#[inline(always)]
fn feed(scan: Scan, scanner: &mut Scanner, part: &[u8], fed: &mut Fed) -> u32 {
    *fed = Fed::default();
    if !(1..=WINDOW_LIMIT).contains(&scanner.window) {
        return WINDOW;
    }
    if !sound(scanner) {
        return UNSOUND;
    }
    if part.is_empty() {
        return ACCEPTED;
    }
    let window = scanner.window as usize;
    let count = scanner.count as usize;
    let mut open = Open::of(scanner, part);
    match scan(window, part, &mut open) {
        Some(length) => {
            *fed = Fed {
                consumed: length as u64,
                cut: 1,
                place: (count + length - window) as u64,
                value: u64::from(open.max),
            };
            *scanner = Scanner::fresh(scanner.window);
        }
        None => {
            fed.consumed = part.len() as u64;
            scanner.count = (count + part.len()) as u32;
            scanner.place = (count + open.end + 1 - window) as u32;
            scanner.value = u32::from(open.max);
        }
    }
    ACCEPTED
}

/// A feed by Algorithm 1.
#[inline(never)]
pub fn feed_1(scanner: &mut Scanner, part: &[u8], fed: &mut Fed) -> u32 {
    feed(algorithm_1, scanner, part, fed)
}

/// A feed by Algorithm 2.
#[inline(never)]
pub fn feed_2(scanner: &mut Scanner, part: &[u8], fed: &mut Fed) -> u32 {
    feed(algorithm_2, scanner, part, fed)
}
