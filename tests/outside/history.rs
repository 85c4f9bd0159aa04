//! Quotes and takes one after another with one store, from a fresh head on.

use crate::call::compare;
use crate::forging;
use crate::memory::{Lent, Store};
use crate::model::{chunks, index, ACCEPTED, INDEX, INDEX_LENGTH, OUTPUT_SHORT, RECIPE_LIMIT};
use crate::pair::Pair;
use crate::random::Random;
use crate::shrink::{shorter, smaller_bytes, without_block, Case, Smaller};
use crate::store_calls::{Look, Rebuild, StoreOpen, Take};
use crate::tally::Tally;
use std::collections::HashMap;

/// A quote or a take of a history: the job and the recipe memory that is lent.
#[derive(Clone, Debug)]
pub struct Step {
    pub takes: bool,
    pub job: Lent<u8>,
    pub recipe: Lent<u32>,
}

impl Step {
    /// One or two quotes and takes of a job; in some cases the recipe memory is too short for it or over
    /// the limit.
    pub fn random(random: &mut Random, job: &[u8]) -> Vec<Self> {
        let choices: [&[bool]; 5] = [
            &[false],
            &[true],
            &[false, true],
            &[true, false],
            &[true, true],
        ];
        random
            .pick(&choices)
            .iter()
            .map(|&takes| {
                let places = match random.below(200) {
                    0 => RECIPE_LIMIT + 1,
                    1..=20 => random.below(100),
                    _ => job.len(),
                };
                Step {
                    takes,
                    job: Lent::new(job),
                    recipe: forging::recipe(random, places),
                }
            })
            .collect()
    }
}

/// Quotes and takes with a store that starts with a fresh head, a pool and a directory of any contents,
/// and a fresh index.
#[derive(Clone, Debug)]
pub struct History {
    pub window: u32,
    pub pool: Lent<u8>,
    pub directory: Lent<u32>,
    pub steps: Vec<Step>,
}

/// A quote or a take that was not refused, at a step counted from 0, with the recipe that it left and
/// the bytes of the job's new chunks. Only a take makes the job an accepted one.
pub struct Answer<'a> {
    pub step: usize,
    pub taken: bool,
    pub job: &'a [u8],
    pub recipe: Vec<u32>,
    pub new_bytes: u64,
}

/// The number of each chunk of the accepted jobs, given in the order in which they first appear.
type Appearances<'a> = HashMap<&'a [u8], u32>;

impl History {
    /// These steps with a store of so many pool bytes and directory entries, in some cases of fewer.
    pub fn random(
        random: &mut Random,
        window: u32,
        (pool, entries): (usize, usize),
        steps: Vec<Step>,
    ) -> Self {
        let [pool, entries] = [(pool, pool / 3), (entries, entries / 6)].map(|(most, few)| {
            if random.once_in(5) {
                random.below(few)
            } else {
                most
            }
        });
        History {
            window,
            pool: Lent::new(&random.bytes(pool)),
            directory: Lent::new(&random.numbers(2 * entries)),
            steps,
        }
    }

    /// Makes the quotes and takes, compares each with the model, with the other on the same inputs and
    /// with the chunks' first appearances, and at the end checks the index and rebuilds every accepted
    /// job. No index may be refused. Gives the answers.
    pub fn run(&self, tally: &mut Tally) -> Result<Vec<Answer<'_>>, String> {
        let (_, opened) = compare(&StoreOpen::new(self.window), tally)?;
        let mut store = Store {
            head: opened.head,
            pool: self.pool.clone(),
            directory: self.directory.clone(),
            index: Lent::new(&index::fresh(self.directory.len())),
        };
        let mut appearances = Appearances::new();
        let mut answers = Vec::new();
        for (place, step) in self.steps.iter().enumerate() {
            let pair = Pair::new(&store, &step.recipe, &step.job);
            let (refusal, after) = pair.compare(tally)?;
            if [INDEX_LENGTH, INDEX].contains(&refusal) {
                return Err(format!(
                    "Step {place}, from 0, ends with refusal {refusal}."
                ));
            }
            if refusal == ACCEPTED {
                let new = check_appearances(&appearances, self.window, &step.job, &after)?;
                if step.takes {
                    appearances.extend(new);
                }
                answers.push(Answer {
                    step: place,
                    taken: step.takes,
                    job: &step.job,
                    recipe: after.written_recipe().to_vec(),
                    new_bytes: after.counts[1],
                });
            }
            if step.takes {
                store = after.store;
            }
        }
        check_index(&store)?;
        let accepted = answers.iter().filter(|answer| answer.taken);
        for (index, accepted) in accepted.enumerate() {
            check_rebuilt(&store, accepted, index % 3, tally)?;
        }
        Ok(answers)
    }

    /// Histories with fewer steps, shorter jobs or less memory.
    pub fn smaller_histories(&self) -> impl Iterator<Item = Self> + '_ {
        let fewer = without_block(&self.steps).map(|steps| History {
            steps,
            ..self.clone()
        });
        let steps = (0..self.steps.len()).flat_map(move |index| {
            let step = &self.steps[index];
            let jobs = smaller_bytes(&step.job).map(|job| Step {
                job: Lent::new(&job),
                ..step.clone()
            });
            let recipes = shorter(&step.recipe).map(|recipe| Step {
                recipe,
                ..step.clone()
            });
            recipes.chain(jobs).map(move |step| {
                let mut smaller = self.clone();
                smaller.steps[index] = step;
                smaller
            })
        });
        let pools = shorter(&self.pool).map(|pool| History {
            pool,
            ..self.clone()
        });
        let directories = shorter(&self.directory).map(|directory| History {
            directory,
            ..self.clone()
        });
        fewer.chain(pools).chain(directories).chain(steps)
    }
}

impl Case for History {
    fn check(&self, tally: &mut Tally) -> Result<(), String> {
        self.run(tally).map(|_| ())
    }

    fn smaller(&self) -> Smaller<'_, Self> {
        Box::new(self.smaller_histories())
    }
}

/// Compares an answer with the first appearances of the job's chunks. Gives those that it adds.
fn check_appearances<'a>(
    before: &Appearances<'a>,
    window: u32,
    job: &'a [u8],
    after: &Take,
) -> Result<Appearances<'a>, String> {
    let mut new = Appearances::new();
    let mut recipe = Vec::new();
    let mut new_bytes = 0;
    for chunk in chunks::chunks(window, job) {
        let next = (before.len() + new.len()) as u32;
        let number = match before.get(chunk) {
            Some(&number) => number,
            None => *new.entry(chunk).or_insert(next),
        };
        if number == next {
            new_bytes += chunk.len() as u64;
        }
        recipe.push(number);
    }
    let answer = (
        after.written_recipe(),
        after.counts[1],
        after.counts[1] + after.counts[2],
    );
    let expected = (&recipe[..], new_bytes, job.len() as u64);
    if answer == expected {
        return Ok(new);
    }
    Err(format!(
        "Recipe, new bytes and job length are {answer:?} by the library, \
         {expected:?} by the first appearances."
    ))
}

/// Checks that the index is as if the chunks that the store holds had been entered one after another.
fn check_index(store: &Store) -> Result<(), String> {
    if *store == store.clone().indexed() {
        return Ok(());
    }
    Err(format!("The chunks were not entered in order: {store:#?}"))
}

/// Rebuilds an accepted job, with some bytes of output to spare, and looks at its first chunk. An
/// output that is one byte too short must be refused.
fn check_rebuilt(
    store: &Store,
    job: &Answer,
    spare: usize,
    tally: &mut Tally,
) -> Result<(), String> {
    let output: Vec<u8> = (0..job.job.len() + spare)
        .map(|index| index as u8 ^ 0x5C)
        .collect();
    let rebuild = Rebuild::new(store, &job.recipe, &Lent::new(&output));
    let (refusal, after) = compare(&rebuild, tally)?;
    if refusal != ACCEPTED || after.output[..job.job.len()] != *job.job {
        return Err(format!(
            "The recipe does not give back its job, refusal {refusal}: {after:#?}"
        ));
    }
    let short = Rebuild::new(store, &job.recipe, &Lent::new(&output[..job.job.len() - 1]));
    let (refusal, _) = compare(&short, tally)?;
    if refusal != OUTPUT_SHORT {
        return Err(format!(
            "An output that is too short gives refusal {refusal}: {short:#?}"
        ));
    }
    let (refusal, after) = compare(&Look::new(store, job.recipe[0]), tally)?;
    let [offset, length] = [0, 1].map(|index| after.stretch[index] as usize);
    if refusal != ACCEPTED || store.pool[offset..offset + length] != job.job[..length] {
        return Err(format!(
            "The first chunk is not the job's beginning, refusal {refusal}: {after:#?}"
        ));
    }
    Ok(())
}
