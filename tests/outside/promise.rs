//! Demand 3: a revision of an accepted job is charged at most a ceiling, and its cuts and chunk
//! numbers fall in line with those of the old job again. It holds of quotes of revisions as of takes.

use crate::history::{Answer, History, Step};
use crate::jobs;
use crate::memory::Lent;
use crate::model::chunks;
use crate::random::Random;
use crate::shrink::{hold, Case, Smaller};
use crate::tally::Tally;

/// A history for whose every accepted job and every later quote or take demand 3 is checked.
#[derive(Clone, Debug)]
struct Revisions(History);

/// A job that was quoted or taken, with its cuts.
struct Cut<'a> {
    answer: &'a Answer<'a>,
    cuts: Vec<usize>,
}

/// An old job and its revision, divided: both have this beginning and this ending.
struct Division<'a> {
    window: usize,
    old: &'a Cut<'a>,
    revision: &'a Cut<'a>,
    beginning: usize,
    ending: usize,
}

impl Case for Revisions {
    fn check(&self, tally: &mut Tally) -> Result<(), String> {
        check_pairs(self.0.window, &self.0.run(tally)?, tally)
    }

    fn smaller(&self) -> Smaller<'_, Self> {
        Box::new(self.0.smaller_histories().map(Revisions))
    }
}

/// Checks demand 3 for every accepted job and every later quote or take that was not refused.
pub fn check_pairs(window: u32, answers: &[Answer], tally: &mut Tally) -> Result<(), String> {
    let mut taken: Vec<Cut> = Vec::new();
    for answer in answers {
        let revision = Cut {
            answer,
            cuts: chunks::cuts(window, answer.job),
        };
        for old in &taken {
            check_pair(window as usize, old, &revision, tally).map_err(|fault| {
                let (old, revision) = (old.answer.step, answer.step);
                format!("Old job of step {old} and revision of step {revision}, from 0: {fault}")
            })?;
        }
        if answer.taken {
            taken.push(revision);
        }
    }
    Ok(())
}

/// Checks demand 3 for some of the divisions of two jobs, the one with the longest ending among
/// them.
fn check_pair(window: usize, old: &Cut, revision: &Cut, tally: &mut Tally) -> Result<(), String> {
    let (a, b) = (old.answer.job, revision.answer.job);
    let shorter = a.len().min(b.len());
    let same_beginning = a.iter().zip(b).take_while(|(x, y)| x == y).count();
    let same_ending = a
        .iter()
        .rev()
        .zip(b.iter().rev())
        .take_while(|(x, y)| x == y)
        .count();
    for ending in [same_ending, same_ending - same_ending / 3, same_ending / 8] {
        let longest = same_beginning.min(shorter - ending);
        for beginning in [longest, longest / 2] {
            Division {
                window,
                old,
                revision,
                beginning,
                ending,
            }
            .check(tally)?;
        }
    }
    Ok(())
}

impl Division<'_> {
    /// Checks demand 3 at each place of the ending that qualifies.
    fn check(&self, tally: &mut Tally) -> Result<(), String> {
        let old_job = self.old.answer.job;
        let ending = &old_job[old_job.len() - self.ending..];
        for place in self.window + 1..=self.ending.saturating_sub(self.window) {
            if qualifies(self.window, ending, place) {
                self.check_place(place, tally).map_err(|fault| {
                    let (beginning, ending) = (self.beginning, self.ending);
                    format!("beginning {beginning}, ending {ending}, place {place}: {fault}")
                })?;
            }
        }
        Ok(())
    }

    /// Checks the ceiling, the cuts and the chunk numbers for one place of the ending.
    fn check_place(&self, place: usize, tally: &mut Tally) -> Result<(), String> {
        let revision = self.revision.answer;
        let changed = revision.job.len() - self.beginning - self.ending;
        let (charge, ceiling) = (
            revision.new_bytes,
            (changed + place + 257 * self.window) as u64,
        );
        if charge > ceiling {
            return Err(format!(
                "The charge is {charge}, over the ceiling {ceiling}."
            ));
        }
        let old = self.from_cut(self.old, place + self.window)?;
        let new = self.from_cut(self.revision, place + self.window)?;
        if old != new {
            return Err(format!(
                "Cuts and numbers are {old:?} in the old job, {new:?} in the revision."
            ));
        }
        tally.count_place(revision.taken, charge, ceiling);
        Ok(())
    }

    /// The cuts of a job from this place of the ending on, at which a cut must be, and the numbers
    /// of the chunks that start after it.
    fn from_cut<'a>(&self, job: &'a Cut, place: usize) -> Result<(Vec<usize>, &'a [u32]), String> {
        let start = job.answer.job.len() - self.ending;
        match job.cuts.binary_search(&(start + place)) {
            Ok(index) => Ok((
                job.cuts[index..].iter().map(|cut| cut - start).collect(),
                &job.answer.recipe[index + 1..],
            )),
            Err(_) => Err(format!("No cut stands at place {place} of the ending.")),
        }
    }
}

/// Tells whether the byte at a place of the ending, counted from 1, is larger than each of the
/// `window` bytes before it and no smaller than each of the `window` bytes after it.
pub fn qualifies(window: usize, ending: &[u8], place: usize) -> bool {
    let byte = ending[place - 1];
    ending[place - 1 - window..place - 1]
        .iter()
        .all(|&before| before < byte)
        && ending[place..place + window]
            .iter()
            .all(|&after| after <= byte)
}

/// Checks the examples, then this many histories made at random.
pub fn run(random: &mut Random, histories: u64, tally: &mut Tally) -> Result<(), String> {
    check_tight_example()?;
    check_quoted_only_example()?;
    for _ in 0..histories {
        hold(&Revisions(history(random)), tally)?;
    }
    Ok(())
}

/// A history with window 1, ample memory, and these jobs, each quoted or taken.
fn example(jobs: &[(bool, &[u8])]) -> History {
    let steps = jobs.iter().map(|&(takes, job)| Step {
        takes,
        job: Lent::new(job),
        recipe: Lent::new(&[9; 500]),
    });
    History {
        window: 1,
        pool: Lent::new(&[9; 2_000]),
        directory: Lent::new(&[9; 500]),
        steps: steps.collect(),
    }
}

/// Checks that the ceiling is reached, by a quote and by the take after it: 257 and 3 new bytes, where
/// 1 byte is changed, the place is 2 and the window is 1.
fn check_tight_example() -> Result<(), String> {
    let rise: Vec<u8> = (0..=255).collect();
    let old = [&rise[..], &[1, 2, 0]].concat();
    let revision = [&rise[..], &[3, 1, 2, 0]].concat();
    let mut tally = Tally::default();
    let history = example(&[(true, &old), (false, &revision), (true, &revision)]);
    hold(&Revisions(history), &mut tally)?;
    if tally.nearest() != [100.0; 2] {
        return Err(format!(
            "The example's charges are {:?} % of their ceiling and not 100.",
            tally.nearest()
        ));
    }
    Ok(())
}

/// Checks that a quote alone makes no job accepted: a revision of a job that was only quoted is charged
/// whole, 460 bytes, where the ceiling after a take of the old job would be 260.
fn check_quoted_only_example() -> Result<(), String> {
    let rise: Vec<u8> = (0..=255).collect();
    let ending: Vec<u8> = (0..100).flat_map(|byte| [100 + byte, byte]).collect();
    let old = [&rise[..], &[1, 2, 0], &ending].concat();
    let revision = [&rise[..], &[3, 1, 2, 0], &ending].concat();
    for (takes, expected) in [(false, 460), (true, 260)] {
        let history = example(&[(takes, &old), (false, &revision)]);
        let charge = history.run(&mut Tally::default())?[1].new_bytes;
        if charge != expected {
            return Err(format!(
                "Where the old job is taken: {takes}, the charge is {charge} and not {expected}."
            ));
        }
    }
    Ok(())
}

/// A history of a job, revisions of it and of them, and jobs between, each quoted, taken or both, with
/// some calls to be refused.
fn history(random: &mut Random) -> History {
    let window = 1 + random.below(2) as u32;
    let mut parts = parts(random, window);
    let mut steps = Vec::new();
    for _ in 0..3 + random.below(4) {
        steps.extend(Step::random(random, &parts.concat()));
        if random.once_in(3) {
            let length = random.pick(&[0, 10, 900]);
            let between = jobs::job(random, window, length);
            steps.extend(Step::random(random, &between));
        }
        let changed = random.pick(&[0, 2, 2, 2, 3]);
        parts[changed] = self::parts(random, window)[changed].clone();
    }
    History::random(random, window, (12_000, 6_000), steps)
}

/// The parts of a job of over 600 bytes: any bytes, a rise as long as a chunk can be without a cut,
/// a short stretch and an ending.
fn parts(random: &mut Random, window: u32) -> [Vec<u8>; 4] {
    let opening = random.below(200);
    let rise = 256 * window as usize - random.pick(&[0, 0, 0, 1, 20]);
    let stretch = random.below(12);
    let ending = 370 + random.below(300);
    [
        jobs::job(random, window, opening),
        jobs::long_rise(random, window as usize, rise),
        random.bytes(stretch),
        jobs::job(random, window, ending),
    ]
}
