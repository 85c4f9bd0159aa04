//! How often the cuts and jobs came in which a wrong maximum point or a wrong number of cuts would show.

use crate::model::{ACCEPTED, DIRECTORY_FULL, POOL_FULL, RECIPE_FULL};

/// How many cuts and how many jobs of each kind must come in a full run.
const LEAST: u64 = 5_000;

/// A cut that a feed told of.
pub struct Cut {
    /// The value of the chunk's maximum point.
    pub value: u64,
    /// Whether the maximum point stands before the part that ends the chunk.
    pub earlier: bool,
    /// Whether an equal byte comes after it in that part.
    pub tie: bool,
}

/// The kinds of cuts: the description in the report, and whether a cut is one of them.
const CUTS: [(&str, fn(&Cut) -> bool); 9] = [
    ("with a value below 20", |cut| cut.value < 0x20),
    ("with the value 1F", |cut| cut.value == 0x1F),
    ("with a value from 20 to 7E", |cut| {
        (0x20..=0x7E).contains(&cut.value)
    }),
    ("with the value 20", |cut| cut.value == 0x20),
    ("with the value 7E", |cut| cut.value == 0x7E),
    ("with a value above 7E", |cut| cut.value > 0x7E),
    ("with the value 7F", |cut| cut.value == 0x7F),
    ("with the maximum point in an earlier part", |cut| {
        cut.earlier
    }),
    ("with an equal byte after the maximum point", |cut| cut.tie),
];

/// The kinds of quoted and taken jobs: the description in the report, the refusal, and whether a cut ends
/// the last chunk or, of a refused job, a chunk before the refused one.
const JOBS: [(&str, u32, bool); 5] = [
    ("whose last chunk a cut ends", ACCEPTED, true),
    ("whose last chunk no cut ends", ACCEPTED, false),
    ("refused by 6 after a cut", RECIPE_FULL, true),
    ("refused by 7 after a cut", DIRECTORY_FULL, true),
    ("refused by 8 after a cut", POOL_FULL, true),
];

/// Counts of the kinds.
#[derive(Default)]
pub struct Told {
    cuts: [u64; CUTS.len()],
    jobs: [u64; JOBS.len()],
}

impl Told {
    /// Counts a cut.
    pub fn count_cut(&mut self, cut: &Cut) {
        for (count, (_, is_of_kind)) in self.cuts.iter_mut().zip(CUTS) {
            *count += u64::from(is_of_kind(cut));
        }
    }

    /// Counts a quote or a take that ended with this refusal, after a cut or not.
    pub fn count_job(&mut self, refusal: u32, after_cut: bool) {
        for (count, (_, ground, cut)) in self.jobs.iter_mut().zip(JOBS) {
            *count += u64::from((ground, cut) == (refusal, after_cut));
        }
    }

    /// The descriptions, each with its count.
    fn counts(&self) -> impl Iterator<Item = (String, u64)> + '_ {
        let cuts = CUTS.iter().map(|kind| format!("cuts {}", kind.0));
        let jobs = JOBS.iter().map(|kind| format!("jobs {}", kind.0));
        let counts = self.cuts.iter().chain(&self.jobs).copied();
        cuts.chain(jobs).zip(counts)
    }

    /// Prints the counts.
    pub fn print(&self) {
        for (kind, count) in self.counts() {
            println!("{kind}: {count}");
        }
    }

    /// Tells which count of a full run is too small, if one is.
    pub fn shortfall(&self) -> Result<(), String> {
        match self.counts().find(|&(_, count)| count < LEAST) {
            Some((kind, count)) => Err(format!("only {count} {kind}, and {LEAST} are wanted")),
            None => Ok(()),
        }
    }
}
