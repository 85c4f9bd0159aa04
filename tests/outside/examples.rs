//! The jobs that the scope works by hand, with the answers that it gives, jobs that repeat their own
//! chunks, recipes at the edges of a packet, and an index.

use crate::call::compare;
use crate::memory::{Lent, Store};
use crate::model::index::{sum, TABLE};
use crate::model::{ACCEPTED, CHAINS, DIRECTORY_FULL, POOL_FULL, RECIPE_FULL};
use crate::pair::Pair;
use crate::scanner_calls::{Feed, Finish, ScannerOpen};
use crate::store_calls::{Quote, Take};
use crate::tally::Tally;

/// Of a chunk that a cut ends, the length, and the place and value of its maximum point.
type Cut = (u64, u64, u64);

/// A window, a job and its cuts.
const CUTS: [(u32, &[u8], &[Cut]); 10] = [
    (1, &[5, 5, 5, 5], &[(2, 1, 5), (2, 1, 5)]),
    (2, &[3, 1, 2], &[(3, 1, 3)]),
    (2, &[3, 1], &[]),
    (2, &[3, 1, 3], &[(3, 1, 3)]),
    (2, &[3, 1, 4, 1, 1], &[(5, 3, 4)]),
    (2, &[1, 2, 3, 4], &[]),
    (2, &[9, 1, 9, 2, 3], &[(3, 1, 9)]),
    (2, &[5, 1, 1, 1, 2, 1, 1, 1], &[(3, 1, 5), (4, 2, 2)]),
    (4, &[0x41; 12], &[(5, 1, 0x41), (5, 1, 0x41)]),
    (1, &[0, 0, 0x7F, 0xFF, 0xFF], &[(2, 1, 0), (3, 2, 0xFF)]),
];

/// What a quote and a take tell of a job: new bytes, repeated bytes, saving, and the cuts with a value
/// below 20, from 20 to 7E and above 7E.
type Terms = (u64, u64, i64, [u64; 3]);

/// A job for a fresh store with window 2, its recipe, and what is told.
type Answered = (&'static [u8], &'static [u32], Terms);

/// The hand-worked job, one byte, a repeat at the job's end, and last chunks that no cut ends: each
/// begins as an earlier chunk does and is new. Then cuts with the values at the borders, of new chunks
/// and of repeated ones.
const ANSWERED: [Answered; 7] = [
    (&[3, 1, 2, 3, 1, 2, 7], &[0, 0, 1], (4, 3, -69, [2, 0, 0])),
    (&[9], &[0], (1, 0, -72, [0, 0, 0])),
    (
        &[3, 1, 2, 4, 1, 2, 3, 1, 2],
        &[0, 1, 0],
        (6, 3, -69, [3, 0, 0]),
    ),
    (
        &[3, 1, 2, 3, 1, 2, 3, 1],
        &[0, 0, 1],
        (5, 3, -69, [2, 0, 0]),
    ),
    (&[1, 3, 1, 2, 1, 3, 1], &[0, 1], (7, 0, -72, [1, 0, 0])),
    (
        b"\x1F\0\0\x20\0\0\x7E\0\0\x7F\0\0\xFF\0",
        &[0, 1, 2, 3, 4],
        (14, 0, -72, [1, 2, 1]),
    ),
    (
        b"\x7F\0\0\x20\0\0\x20\0\0\x7F\0\0\x1F\0\0",
        &[0, 1, 1, 0, 2],
        (9, 6, -66, [1, 2, 2]),
    ),
];

/// The numbers of a recipe, and the packets in which they travel.
const PACKETS: [(usize, i64); 8] = [
    (1, 1),
    (31, 1),
    (32, 1),
    (33, 2),
    (64, 2),
    (65, 3),
    (65_504, 2_047),
    (65_535, 2_048),
];

/// Checks all of them.
pub fn run(tally: &mut Tally) -> Result<(), String> {
    for (window, job, cuts) in CUTS {
        check_cuts(window, job, cuts, tally)?;
    }
    let mut rise: Vec<u8> = (0..=255).collect();
    check_cuts(1, &rise, &[], tally)?;
    rise.push(0);
    check_cuts(1, &rise, &[(257, 256, 255)], tally)?;
    let fresh = Store::new([2, 0, 0], &[7; 64], &[7; 64]);
    for (job, recipe, terms) in ANSWERED {
        check_answer(&fresh, job, recipe, terms, tally)?;
    }
    check_revision(&fresh, tally)?;
    check_refusals(tally)?;
    check_index(&fresh, tally)?;
    for (numbers, packets) in PACKETS {
        check_packets(numbers, packets, tally)?;
    }
    Ok(())
}

/// Feeds a job whole and compares its cuts.
fn check_cuts(window: u32, job: &[u8], expected: &[Cut], tally: &mut Tally) -> Result<(), String> {
    let mut scanner = compare(&ScannerOpen::new(window), tally)?.1.scanner;
    let mut cuts = Vec::new();
    let mut rest = job;
    while !rest.is_empty() {
        let (_, after) = compare(&Feed::new(&scanner, rest), tally)?;
        rest = &rest[after.fed[0] as usize..];
        if let Some(peak) = after.peak() {
            cuts.push((after.fed[0], peak.place, peak.value));
        }
        scanner = after.scanner;
    }
    let last = compare(&Finish::new(&scanner), tally)?.1.count[0];
    let cut: u64 = expected.iter().map(|(length, ..)| length).sum();
    if cuts != expected || last != job.len() as u64 - cut {
        return Err(format!(
            "Window {window}, job {job:02X?}: the cuts are {cuts:?}, not {expected:?}."
        ));
    }
    Ok(())
}

/// Quotes and takes a job and compares its recipe and what is told. Gives the store.
fn check_answer(
    store: &Store,
    job: &[u8],
    recipe: &[u32],
    (new, repeated, saving, cuts): Terms,
    tally: &mut Tally,
) -> Result<Store, String> {
    let (refusal, after) = Pair::new(store, &Lent::new(&[8; 20]), job).compare(tally)?;
    let counts = [&[recipe.len() as u64, new, repeated], &cuts[..]].concat();
    let found = (after.written_recipe(), &after.counts[..], after.saving[0]);
    if refusal != ACCEPTED || found != (recipe, &counts[..], saving) {
        return Err(format!(
            "Job {job:02X?} should give {recipe:?}, {counts:?} and {saving}: {after:#?}"
        ));
    }
    Ok(after.store)
}

/// Takes the hand-worked old job, quotes its revision twice, then takes it, each with the recipe
/// memory as the call before left it. After that the revision has nothing new.
fn check_revision(fresh: &Store, tally: &mut Tally) -> Result<(), String> {
    let old = [5, 1, 1, 9, 2, 3, 4];
    let revision = [6, 6, 1, 1, 9, 2, 3, 4];
    let cuts = [2, 0, 0];
    let store = check_answer(fresh, &old, &[0, 1, 2], (7, 0, -72, cuts), tally)?;
    check_answer(&store, &revision, &[3, 4, 2], (7, 1, -71, cuts), tally)?;
    let first = compare(&Quote::new(&store, &Lent::new(&[8; 5]), &revision), tally)?.1;
    let second = compare(&Quote::new(&store, &first.recipe, &revision), tally)?.1;
    let taken = compare(&Take::new(&store, &second.recipe, &revision), tally)?.1;
    let answers = [first.answer(), second.answer(), taken.answer()];
    if taken.recipe[..] != [3, 4, 2, 8, 8] || answers != [taken.answer(); 3] {
        return Err(format!("The quotes and the take differ: {answers:#?}"));
    }
    let repeated = (0, 8, -64, cuts);
    check_answer(&taken.store, &revision, &[3, 4, 2], repeated, tally)?;
    Ok(())
}

/// Quotes and takes a job of the chunks a, a, b, a, c where there is room for two new chunks only, and
/// where the recipe ends after a repeat. The recipe gets the numbers of the chunks before the refused
/// one, and nothing is told of their cuts.
fn check_refusals(tally: &mut Tally) -> Result<(), String> {
    let [a, b, c] = [[3, 1, 2], [4, 1, 2], [5, 1, 2]];
    let job = [a, a, b, a, c].concat();
    for (pool, entries, places, refusal, recipe) in [
        (9, 2, 6, DIRECTORY_FULL, &[0, 0, 1, 0, 8, 8][..]),
        (8, 3, 6, POOL_FULL, &[0, 0, 1, 0, 8, 8]),
        (8, 2, 6, DIRECTORY_FULL, &[0, 0, 1, 0, 8, 8]),
        (9, 3, 4, RECIPE_FULL, &[0, 0, 1, 0]),
        (8, 2, 4, RECIPE_FULL, &[0, 0, 1, 0]),
        (9, 3, 6, ACCEPTED, &[0, 0, 1, 0, 2, 8]),
    ] {
        let store = Store::new([2, 0, 0], &vec![7; pool], &vec![7; 2 * entries]);
        let pair = Pair::new(&store, &Lent::new(&vec![8; places]), &job);
        let (found, after) = pair.compare(tally)?;
        let counts = match refusal {
            ACCEPTED => [5, 9, 6, 5, 0, 0],
            _ => [0; 6],
        };
        if found != refusal || after.recipe[..] != *recipe || after.counts[..] != counts {
            return Err(format!(
                "Refusal {refusal} should come with {recipe:?} and {counts:?}. Refusal {found} came: {after:#?}"
            ));
        }
    }
    Ok(())
}

/// Takes a job of four chunks, the first three on chain 239 and the last on chain 103, then a job that
/// has the middle one of the three. The table and a sum are those of a calculation by hand.
fn check_index(fresh: &Store, tally: &mut Tally) -> Result<(), String> {
    if TABLE[..4] != [270_369, 67_634_689, 2_647_435_461, 307_599_695] || sum(&[7]) != 0x19F9_1CB2 {
        return Err(String::from("The model's table or sum is wrong."));
    }
    let job = [4, 0, 0, 8, 6, 3, 10, 3, 2, 7];
    let terms = (10, 0, -72, [3, 0, 0]);
    let store = check_answer(fresh, &job, &[0, 1, 2, 3], terms, tally)?;
    let end = u32::MAX;
    let mut index = vec![end; CHAINS + 32];
    (index[239], index[103]) = (2, 3);
    index[CHAINS..CHAINS + 4].copy_from_slice(&[end, 0, 1, end]);
    if store.index[..] != index {
        return Err(format!("The index should be {index:?}: {store:#?}"));
    }
    let repeated = (0, 3, -69, [1, 0, 0]);
    check_answer(&store, &job[3..6], &[1], repeated, tally)?;
    Ok(())
}

/// Takes a job of equal bytes that has this many chunks, the first of them new, and compares its saving.
fn check_packets(numbers: usize, packets: i64, tally: &mut Tally) -> Result<(), String> {
    let store = Store::new([1, 0, 0], &[7; 2], &[7; 2]);
    let job = vec![5; 2 * numbers];
    let recipe = Lent::new(&vec![8; numbers]);
    let (refusal, after) = Pair::new(&store, &recipe, &job).compare(tally)?;
    let expected = job.len() as i64 - 2 - 72 * packets;
    if refusal != ACCEPTED || after.counts[0] != numbers as u64 || after.saving[0] != expected {
        let (counts, saving) = (&after.counts[..], after.saving[0]);
        return Err(format!(
            "{numbers} numbers should save {expected}: refusal {refusal}, counts {counts:?}, saving {saving}."
        ));
    }
    Ok(())
}
