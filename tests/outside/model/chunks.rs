//! The chunks of a whole job by the definition of the maximum point, with no scanner.

/// The first maximum point of a chunk: its place, counted from 1 in the chunk, and the byte there.
#[derive(Clone, Copy, PartialEq, Debug)]
pub struct Peak {
    pub place: u64,
    pub value: u64,
}

/// A chunk of a job, with its first maximum point if a cut ends it.
pub struct Chunk<'a> {
    pub bytes: &'a [u8],
    pub peak: Option<Peak>,
}

/// Tells whether a place of a chunk, counted from 1, is a maximum point: its byte is the first or
/// larger than every byte before it, and not smaller than any of the `window` bytes after it, all
/// of which exist. `rest` is the job from the chunk's first byte on.
fn is_maximum_point(window: usize, rest: &[u8], place: usize) -> bool {
    let byte = rest[place - 1];
    place + window <= rest.len()
        && rest[..place - 1].iter().rev().all(|&before| before < byte)
        && rest[place..place + window]
            .iter()
            .all(|&after| after <= byte)
}

/// The first chunk of `rest`: it ends `window` places after its first maximum point or, where there
/// is none, with the job.
fn first_chunk(window: usize, rest: &[u8]) -> Chunk<'_> {
    match (1..=rest.len()).find(|&place| is_maximum_point(window, rest, place)) {
        Some(place) => Chunk {
            bytes: &rest[..place + window],
            peak: Some(Peak {
                place: place as u64,
                value: u64::from(rest[place - 1]),
            }),
        },
        None => Chunk {
            bytes: rest,
            peak: None,
        },
    }
}

/// The chunks of a job in order, the last one included.
pub fn division(window: u32, job: &[u8]) -> Vec<Chunk<'_>> {
    let mut division = Vec::new();
    let mut rest = job;
    while !rest.is_empty() {
        let chunk = first_chunk(window as usize, rest);
        rest = &rest[chunk.bytes.len()..];
        division.push(chunk);
    }
    division
}

/// The bytes of a job's chunks.
pub fn chunks(window: u32, job: &[u8]) -> Vec<&[u8]> {
    let division = division(window, job);
    division.iter().map(|chunk| chunk.bytes).collect()
}

/// The places of a job's cuts: of each, how many bytes of the job stand before it.
pub fn cuts(window: u32, job: &[u8]) -> Vec<usize> {
    let mut at = 0;
    let mut cuts = Vec::new();
    for chunk in division(window, job) {
        at += chunk.bytes.len();
        if chunk.peak.is_some() {
            cuts.push(at);
        }
    }
    cuts
}
