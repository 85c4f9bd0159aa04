//! Scanners: jobs fed in parts, and scanners that no feeding has reached.

use crate::call::compare;
use crate::jobs;
use crate::memory::Lent;
use crate::model::chunks::{self, Peak};
use crate::model::{longest_chunk, scanner, ACCEPTED, WINDOW_LIMIT};
use crate::random::Random;
use crate::scanner_calls::{Feed, Finish, ScannerOpen};
use crate::shrink::{hold, smaller_bytes, without_block, Case, Smaller};
use crate::tally::{Operation, Tally};

/// A job fed to a new scanner in parts.
#[derive(Clone, Debug)]
pub struct Feeding {
    pub window: u32,
    parts: Vec<Lent<u8>>,
}

/// What the feeds and the finish tell of a job: the lengths of its chunks, the last one included, and
/// the maximum points of those that a cut ends.
#[derive(Default, PartialEq, Debug)]
pub struct Chunks {
    lengths: Vec<u64>,
    pub peaks: Vec<Peak>,
}

impl Case for Feeding {
    fn check(&self, tally: &mut Tally) -> Result<(), String> {
        self.run(tally).map(|_| ())
    }

    fn smaller(&self) -> Smaller<'_, Self> {
        let fewer = without_block(&self.parts).map(|parts| Feeding { parts, ..*self });
        let shorter = (0..self.parts.len()).flat_map(move |index| {
            smaller_bytes(&self.parts[index]).map(move |part| {
                let mut smaller = self.clone();
                smaller.parts[index] = Lent::new(&part);
                smaller
            })
        });
        Box::new(fewer.chain(shorter))
    }
}

impl Feeding {
    /// This job, split into parts.
    pub fn random(random: &mut Random, window: u32, job: &[u8]) -> Self {
        let parts = split(random, job);
        Feeding { window, parts }
    }

    /// The whole job.
    pub fn job(&self) -> Vec<u8> {
        self.parts.iter().flat_map(|part| part.to_vec()).collect()
    }

    /// Feeds the job. Compares each call with the model, and all that they tell with the definition of a
    /// maximum point. Gives what they tell, nothing where the window is refused.
    pub fn run(&self, tally: &mut Tally) -> Result<Chunks, String> {
        let (refusal, opened) = compare(&ScannerOpen::new(self.window), tally)?;
        let mut told = Chunks::default();
        if refusal != ACCEPTED {
            return Ok(told);
        }
        let mut scanner = opened.scanner;
        let mut length = 0;
        for part in &self.parts {
            let mut rest = &part[..];
            loop {
                let (_, after) = compare(&Feed::new(&scanner, rest), tally)?;
                length += after.fed[0];
                rest = &rest[after.fed[0] as usize..];
                if let Some(peak) = after.peak() {
                    told.lengths.push(length);
                    told.peaks.push(peak);
                    length = 0;
                }
                scanner = after.scanner;
                if rest.is_empty() {
                    break;
                }
            }
        }
        let (_, after) = compare(&Finish::new(&scanner), tally)?;
        let last = after.count.iter().filter(|&&count| count > 0);
        told.lengths.extend(last);
        self.check_chunks(&told)?;
        Ok(told)
    }

    /// Compares the chunks, as the feeds tell of them, with the definition.
    fn check_chunks(&self, told: &Chunks) -> Result<(), String> {
        let job = self.job();
        let division = chunks::division(self.window, &job);
        let lengths = division.iter().map(|chunk| chunk.bytes.len() as u64);
        let expected = Chunks {
            lengths: lengths.collect(),
            peaks: division.iter().filter_map(|chunk| chunk.peak).collect(),
        };
        if *told != expected {
            return Err(format!(
                "The feeds tell of {told:?}, and by the definition it is {expected:?}."
            ));
        }
        let longest = longest_chunk(self.window);
        if told.lengths.iter().any(|&length| length > longest) {
            return Err(format!("A chunk of {told:?} is too long."));
        }
        Ok(())
    }
}

/// Opens scanners, feeds jobs of all kinds and forged scanners, this many feeds, then feeds the
/// longest chunks.
pub fn run(random: &mut Random, feeds: u64, tally: &mut Tally) -> Result<(), String> {
    for window in (0..2_100).chain(jobs::REFUSED_WINDOWS) {
        hold(&ScannerOpen::new(window), tally)?;
        hold(&Feed::new(&[window, 0, 0, 0], b"label"), tally)?;
        hold(&Finish::new(&[window, 0, 0, 0]), tally)?;
    }
    while tally.calls(Operation::Feed) < feeds / 4 * 3 {
        let refused = random.once_in(50);
        let window = if refused {
            random.pick(&jobs::REFUSED_WINDOWS)
        } else {
            jobs::window(random)
        };
        let length = job_length(random, window);
        let job = jobs::job(random, window.clamp(1, WINDOW_LIMIT), length);
        hold(&Feeding::random(random, window, &job), tally)?;
    }
    for _ in 0..feeds / 4 {
        let scanner = forged_scanner(random);
        let window = scanner[0].clamp(1, WINDOW_LIMIT);
        let most = random.pick(&[10, 40, 200, 2 * window as usize]);
        let length = random.below(most);
        let part = jobs::job(random, window, length);
        hold(&Feed::new(&scanner, &part), tally)?;
        hold(&Finish::new(&scanner), tally)?;
    }
    for window in jobs::WINDOWS {
        let rises = jobs::long_rise(random, window as usize, 600 * window as usize);
        hold(&Feeding::random(random, window, &rises), tally)?;
    }
    Ok(())
}

/// A length for a job: short, of some windows, or of more than the longest chunk.
fn job_length(random: &mut Random, window: u32) -> usize {
    let window = window.clamp(1, WINDOW_LIMIT) as usize;
    match random.below(20) {
        0..=3 => random.below(10),
        4..=11 => random.below(200),
        12..=18 => random.below(8 * window + 50),
        _ if window <= 8 || random.once_in(60) => random.below(600 * window),
        _ => random.below(100),
    }
}

/// Splits a job into parts: of any length, of few bytes or of one, some of them empty.
fn split(random: &mut Random, job: &[u8]) -> Vec<Lent<u8>> {
    let longest = random
        .pick(&[1, 3, 20, 100, 1 + job.len()])
        .max(job.len() / 300);
    let mut parts = Vec::new();
    let mut rest = job;
    while !rest.is_empty() || random.once_in(4) {
        let length = if longest == 1 {
            1 - random.below(5) / 4
        } else {
            random.below(longest + 1)
        };
        let (part, others) = rest.split_at(length.min(rest.len()));
        parts.push(Lent::new(part));
        rest = others;
    }
    parts
}

/// A scanner that feeding has reached, one near it, one at the edge of soundness, or any four
/// numbers.
fn forged_scanner(random: &mut Random) -> [u32; 4] {
    match random.below(5) {
        0 => reached_scanner(random),
        1 | 2 => {
            let mut scanner = reached_scanner(random);
            let index = random.below(4);
            let change = random.pick(&[1, u32::MAX, 256, u32::MAX - 255, 1 << 31]);
            scanner[index] = scanner[index].wrapping_add(change);
            scanner
        }
        3 => edge_scanner(random),
        _ => {
            let limit = random.pick(&[3, 300, 3_000, 1 << 32]);
            [0; 4].map(|_| random.below(limit) as u32)
        }
    }
}

/// A scanner that feeding has reached.
fn reached_scanner(random: &mut Random) -> [u32; 4] {
    let window = jobs::window(random);
    let mut reached = [window, 0, 0, 0];
    let length = random.below(3 * window as usize + 3);
    let part = jobs::job(random, window, length);
    scanner::feed(&mut reached, &part, &mut [0; 4]);
    reached
}

/// A scanner whose place and count are the largest that its value allows, or one off.
fn edge_scanner(random: &mut Random) -> [u32; 4] {
    let window = jobs::window(random);
    let value = random.pick(&[
        0,
        1,
        2,
        254,
        255,
        256,
        257,
        (1 << 22) - 1,
        1 << 22,
        u32::MAX,
    ]);
    let place = value
        .wrapping_mul(window)
        .wrapping_add(random.below(4) as u32);
    let count = place.wrapping_add(random.pick(&[u32::MAX, 0, 1, window - 1, window]));
    [window, count, place, value]
}
