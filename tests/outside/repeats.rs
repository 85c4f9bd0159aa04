//! Jobs that repeat their own chunks: a chunk that is new in a job and comes again in it is repeated
//! there, though a quote has not stored it.

use crate::jobs;
use crate::memory::Store;
use crate::model::*;
use crate::random::Random;
use crate::room::{try_rooms, Room, Roomy};
use crate::shrink::hold;
use crate::tally::Tally;

/// Tries this many jobs, some of whose chunks are stored before, with room for all of each, for less
/// and for a part of it.
pub fn run(random: &mut Random, jobs: u64, tally: &mut Tally) -> Result<(), String> {
    for _ in 0..jobs {
        let window = jobs::window(random);
        let palette = palette(random, window);
        let many = if random.once_in(25) { 2_000 } else { 60 };
        let places = random.pick(&[3, 12, many, many]);
        let chunks = chunks(random, &palette, places);
        let mut job = chunks.concat();
        job.extend(ending(random, &chunks));
        let mut stored = palette;
        stored.retain(|_| random.once_in(4));
        let store = Store::of_chunks(window, &stored, &[], &[]);
        try_rooms(random, &store, &job, tally)?;
        fill_after(random, &store, &chunks, &job, tally)?;
    }
    Ok(())
}

/// Tries a job where places, entries or bytes end after some of its chunks.
fn fill_after(
    random: &mut Random,
    store: &Store,
    chunks: &[Vec<u8>],
    job: &[u8],
    tally: &mut Tally,
) -> Result<(), String> {
    let needed = Room::needed(store, job);
    let kept = random.below(chunks.len() + 1);
    let less = Room::needed(store, &chunks[..kept].concat());
    for room in needed.with_less(less) {
        hold(&Roomy(room.lend(random, store, job)), tally)?;
    }
    Ok(())
}

/// Different chunks that a cut ends, some of them alike: of one length, and with the same bytes in
/// another order, or the same but for one; or with the same ending, which are on one chain where it has
/// 32 bytes.
fn palette(random: &mut Random, window: u32) -> Vec<Vec<u8>> {
    let mut palette = vec![chunk(random, window)];
    for _ in 0..random.pick(&[0, 1, 5, 20]) {
        let like = random.below(palette.len());
        let mut next = palette[like].clone();
        let tail = next.len() - window as usize;
        let (a, b) = (random.below(window as usize), random.below(window as usize));
        match random.below(4) {
            0 => next = chunk(random, window),
            1 => next.swap(tail + a, tail + b),
            2 if next[0] > 0 => next.insert(0, random.below(next[0] as usize) as u8),
            _ => next[tail + a] /= 2,
        }
        if !palette.contains(&next) {
            palette.push(next);
        }
    }
    palette
}

/// A chunk that a cut ends: bytes that rise, then `window` bytes none of which is larger.
fn chunk(random: &mut Random, window: u32) -> Vec<u8> {
    let mut chunk = vec![random.byte()];
    while random.once_in(2) {
        let Some(next) = chunk[chunk.len() - 1].checked_add(1 + random.below(9) as u8) else {
            break;
        };
        chunk.push(next);
    }
    let largest = chunk[chunk.len() - 1] as usize;
    chunk.extend((0..window).map(|_| random.below(largest + 1) as u8));
    chunk
}

/// Chunks of a palette, as many as these places or fewer. Each is new with the same chance, whatever
/// the place, so that first appearances and repeats are mixed up to the end.
fn chunks(random: &mut Random, palette: &[Vec<u8>], places: usize) -> Vec<Vec<u8>> {
    let places = 1 + random.below(places);
    let mut seen = 1;
    (0..places)
        .map(|_| {
            if seen < palette.len() && random.once_in(3) {
                seen += 1;
                palette[seen - 1].clone()
            } else {
                palette[random.below(seen)].clone()
            }
        })
        .collect()
}

/// What follows the last cut: nothing, or the beginning of a chunk of the job, which no cut ends. It
/// is new, however long it is.
fn ending(random: &mut Random, chunks: &[Vec<u8>]) -> Vec<u8> {
    let chunk = &chunks[random.below(chunks.len())];
    let any = random.below(chunk.len());
    let length = random.pick(&[0, 0, 1, any, chunk.len() - 1]);
    chunk[..length].to_vec()
}

/// Jobs of 65,535 chunks with window 1: short ones, then ones of up to 257 bytes.
pub fn longest(random: &mut Random, tally: &mut Tally) -> Result<(), String> {
    let short = |number: usize| vec![(128 + number % 128) as u8, (number / 128) as u8];
    let (job, room) = longest_job(random, short)?;
    let less = Room {
        places: room.places - 1,
        entries: room.entries - 1,
        bytes: room.bytes - 1,
    };
    for room in room.with_less(less).into_iter().chain([room]) {
        take_longest(random, &job, room, tally)?;
    }
    let long = |number: usize| {
        let rise = 0..(number % 256) as u8;
        rise.chain([255, (number / 256) as u8]).collect()
    };
    let (job, room) = longest_job(random, long)?;
    take_longest(random, &job, room, tally)
}

/// A job of 65,535 of these chunks, and the room that it needs. Of every 64 chunks two are new, up to
/// the job's end.
fn longest_job(
    random: &mut Random,
    chunk: impl Fn(usize) -> Vec<u8>,
) -> Result<(Vec<u8>, Room), String> {
    let mut job = Vec::new();
    let mut seen = 0;
    for place in 0..RECIPE_LIMIT {
        let new = place % 64 == 0 || place % 64 == 62;
        seen += usize::from(new);
        job.extend(chunk(if new { seen - 1 } else { random.below(seen) }));
    }
    let needed = Room::needed(&Store::new([1, 0, 0], &[], &[]), &job);
    if (needed.places, needed.entries) != (RECIPE_LIMIT, seen) || job.len() < 70_000 {
        return Err(format!("{} bytes need {needed:?}.", job.len()));
    }
    Ok((job, needed))
}

/// Takes a job into a fresh store with this room.
fn take_longest(
    random: &mut Random,
    job: &[u8],
    room: Room,
    tally: &mut Tally,
) -> Result<(), String> {
    let fresh = Store::new([1, 0, 0], &[], &[]);
    hold(&Roomy(room.lend(random, &fresh, job)), tally)
}
