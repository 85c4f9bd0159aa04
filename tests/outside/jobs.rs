//! Windows and jobs of many kinds.

use crate::random::Random;

/// Windows that are accepted.
pub const WINDOWS: [u32; 20] = [
    1, 2, 3, 4, 5, 7, 8, 9, 12, 15, 16, 17, 24, 31, 32, 33, 47, 48, 63, 64,
];

/// Windows that are refused.
pub const REFUSED_WINDOWS: [u32; 9] = [0, 65, 66, 1_024, 1_025, 2_048, 65_536, 1 << 31, u32::MAX];

/// A window that is accepted; a small one more often.
pub fn window(random: &mut Random) -> u32 {
    let choices = random.pick(&[4, 7, WINDOWS.len()]);
    random.pick(&WINDOWS[..choices])
}

/// A job of this length and of any kind.
pub fn job(random: &mut Random, window: u32, length: usize) -> Vec<u8> {
    match random.below(8) {
        0 => vec![random.byte(); length],
        1 => few_values(random, length),
        2 => random.bytes(length),
        3 => rising_runs(random, length),
        4 => label(random, length),
        5 => {
            let shorter = random.below(window as usize);
            let stay = window as usize - random.pick(&[0, shorter]);
            long_rise(random, stay, length)
        }
        6 => borders(random, window, length),
        _ => mixed(random, window, length),
    }
}

/// A job of few different bytes.
fn few_values(random: &mut Random, length: usize) -> Vec<u8> {
    let (base, values) = (random.byte(), 2 + random.below(3));
    (0..length)
        .map(|_| base.wrapping_add(random.below(values) as u8))
        .collect()
}

/// A job of short runs in which each byte is larger than the one before.
fn rising_runs(random: &mut Random, length: usize) -> Vec<u8> {
    let mut job = Vec::with_capacity(length);
    let mut byte = random.byte();
    while job.len() < length {
        job.push(byte);
        byte = match byte.checked_add(1 + random.below(3) as u8) {
            Some(next) if !random.once_in(12) => next,
            _ => random.byte(),
        };
    }
    job
}

/// A job like the text of printed labels, with few different fields.
fn label(random: &mut Random, length: usize) -> Vec<u8> {
    let mut job = Vec::with_capacity(length + 40);
    while job.len() < length {
        let (x, y) = (10 * random.below(4), 25 * random.below(4));
        let name = random.pick(&["LOT", "QTY", "BOX OF", "DATE"]);
        let field = format!("^XA^FO{x},{y}^FD{name} {}^FS^XZ\n", random.below(12));
        job.extend_from_slice(field.as_bytes());
    }
    job.truncate(length);
    job
}

/// A job of rises from 00 to FF in which each byte stays this long. Where that is at most the
/// window, no cut comes before FF.
pub fn long_rise(random: &mut Random, stay: usize, length: usize) -> Vec<u8> {
    let mut job = Vec::with_capacity(length);
    while job.len() < length {
        for byte in 0..=255 {
            job.resize((job.len() + stay).min(length), byte);
        }
        if job.len() < length {
            job.push(random.byte());
        }
    }
    job
}

/// The values between which cuts are told apart, and those beside them.
const BORDERS: [u8; 4] = [0x1F, 0x20, 0x7E, 0x7F];

/// A job of stretches in each of which no byte is larger than a border, some are equal to it, and the
/// others are just below it or any.
fn borders(random: &mut Random, window: u32, length: usize) -> Vec<u8> {
    let mut job = Vec::with_capacity(length);
    while job.len() < length {
        let largest = random.pick(&BORDERS);
        let stretch = (1 + random.below(3 * window as usize + 3)).min(length - job.len());
        job.extend((0..stretch).map(|_| match random.below(6) {
            0 | 1 => largest,
            2 | 3 => largest - random.below(3) as u8,
            _ => random.below(largest as usize) as u8,
        }));
    }
    job
}

/// A job of stretches of different kinds.
fn mixed(random: &mut Random, window: u32, length: usize) -> Vec<u8> {
    let mut mixed = Vec::with_capacity(length);
    while mixed.len() < length {
        let stretch = (1 + random.below(60)).min(length - mixed.len());
        mixed.extend(job(random, window, stretch));
    }
    mixed
}

/// A job with some stretches of it replaced, left out or put in.
pub fn revision(random: &mut Random, job: &[u8]) -> Vec<u8> {
    let mut revision = job.to_vec();
    for _ in 0..1 + random.below(2) {
        let start = random.below(revision.len() + 1);
        let end = (start + random.below(12)).min(revision.len());
        let length = random.below(8);
        let changed = few_values(random, length);
        revision.splice(start..end, changed);
    }
    revision
}
