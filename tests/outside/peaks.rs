//! The maximum points that feeds tell of, and what quotes and takes make of them: three numbers of cuts,
//! which are the same whatever the store holds.

use crate::feeding::Feeding;
use crate::jobs;
use crate::memory::{Lent, Store};
use crate::model::chunks::{self, Peak};
use crate::model::ACCEPTED;
use crate::pair::Pair;
use crate::random::Random;
use crate::room::Room;
use crate::shrink::{hold, smaller_bytes, without_block, Case, Smaller};
use crate::store_calls::Take;
use crate::tally::Tally;

/// A job that is fed in parts, then quoted and taken with a fresh store and with one that holds other jobs.
#[derive(Clone, Debug)]
struct FedAndQuoted {
    feeding: Feeding,
    others: Vec<Lent<u8>>,
}

impl Case for FedAndQuoted {
    /// Compares what the feeds tell with what quotes and takes of the job tell, each before and after the
    /// store holds the job.
    fn check(&self, tally: &mut Tally) -> Result<(), String> {
        let peaks = self.feeding.run(tally)?.peaks;
        let job = self.feeding.job();
        if job.is_empty() {
            return Ok(());
        }
        let cuts = chunks::cuts(self.feeding.window, &job).len();
        for store in self.stores(&job, tally)? {
            let first = self.take(&store, &job, tally)?;
            let second = self.take(&first.store, &job, tally)?;
            for take in [first, second] {
                check_cuts(&take, &peaks, cuts)?;
            }
        }
        Ok(())
    }

    fn smaller(&self) -> Smaller<'_, Self> {
        let fewer = without_block(&self.others).map(|others| FedAndQuoted {
            others,
            ..self.clone()
        });
        let feedings = self.feeding.smaller().map(|feeding| FedAndQuoted {
            feeding,
            ..self.clone()
        });
        let others = (0..self.others.len()).flat_map(move |index| {
            smaller_bytes(&self.others[index]).map(move |job| {
                let mut smaller = self.clone();
                smaller.others[index] = Lent::new(&job);
                smaller
            })
        });
        Box::new(fewer.chain(feedings).chain(others))
    }
}

impl FedAndQuoted {
    /// A fresh store and one that holds the other jobs, both with room for the job.
    fn stores(&self, job: &[u8], tally: &mut Tally) -> Result<[Store; 2], String> {
        let window = self.feeding.window;
        let lengths = self.others.iter().map(|other| other.len());
        let length = job.len() + lengths.sum::<usize>();
        let entries = Room::enough(window, length).entries + self.others.len();
        let fresh = Store::new([window, 0, 0], &vec![7; length], &vec![7; 2 * entries]);
        let mut store = fresh.clone();
        for other in self.others.iter().filter(|other| !other.is_empty()) {
            store = self.take(&store, other, tally)?.store;
        }
        Ok([fresh, store])
    }

    /// Quotes and takes a job, which must be accepted. Gives the take.
    fn take(&self, store: &Store, job: &[u8], tally: &mut Tally) -> Result<Take, String> {
        let places = Room::enough(self.feeding.window, job.len()).places;
        match Pair::new(store, &Lent::new(&vec![8; places]), job).compare(tally)? {
            (ACCEPTED, take) => Ok(take),
            (refusal, _) => Err(format!("There is room, and refusal {refusal} came.")),
        }
    }
}

/// Checks that a take tells how many of these maximum points have a value below 20, from 20 to 7E and
/// above 7E, and that this is the number of the job's cuts in all.
fn check_cuts(take: &Take, peaks: &[Peak], cuts: usize) -> Result<(), String> {
    let number = |is_counted: fn(u64) -> bool| {
        let counted = peaks.iter().filter(|peak| is_counted(peak.value));
        counted.count() as u64
    };
    let expected = [
        number(|value| value < 0x20),
        number(|value| (0x20..=0x7E).contains(&value)),
        number(|value| value > 0x7E),
    ];
    let told = take.cuts_by_value();
    if told == expected && told.iter().sum::<u64>() == cuts as u64 {
        return Ok(());
    }
    Err(format!(
        "The cuts are {told:?} by quote and take, {expected:?} by the feeds, and {cuts} in all: {take:#?}"
    ))
}

/// Checks this many jobs made at random.
pub fn run(random: &mut Random, jobs: u64, tally: &mut Tally) -> Result<(), String> {
    for _ in 0..jobs {
        let window = jobs::window(random);
        let job = job(random, window);
        let feeding = Feeding::random(random, window, &job);
        let mut others = Vec::new();
        for _ in 0..1 + random.below(3) {
            let other = if random.once_in(2) {
                jobs::revision(random, &job)
            } else {
                self::job(random, window)
            };
            others.push(Lent::new(&other));
        }
        hold(&FedAndQuoted { feeding, others }, tally)?;
    }
    Ok(())
}

/// A job of any kind, with few or many chunks.
fn job(random: &mut Random, window: u32) -> Vec<u8> {
    let most = random.pick(&[10, 60, 8 * window as usize, 16 * window as usize]);
    let length = 1 + random.below(most);
    jobs::job(random, window, length)
}
