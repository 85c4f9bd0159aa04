//! Histories made at random: quotes and takes of new jobs and of revisions, and memory that runs out.

use crate::forging;
use crate::history::{History, Step};
use crate::jobs;
use crate::memory::Lent;
use crate::random::Random;
use crate::shrink::hold;
use crate::tally::{Operation, Tally};

/// Checks histories until this many takes more are done.
pub fn run(random: &mut Random, takes: u64, tally: &mut Tally) -> Result<(), String> {
    let before = tally.calls(Operation::Take);
    while tally.calls(Operation::Take) < before + takes {
        hold(&history(random), tally)?;
    }
    Ok(())
}

/// A history with any window, pool, directory and jobs.
fn history(random: &mut Random) -> History {
    let window = jobs::window(random);
    let pool = random.pick(&[50, 1_000, 5_000, 20_000]);
    let pool = random.below(pool + 1);
    let entries = random.pick(&[10, 100, 500, 500]);
    let odd = usize::from(random.once_in(100));
    let directory = 2 * random.below(entries + 1) + odd;
    let mut history = History {
        window,
        pool: Lent::new(&random.bytes(pool)),
        directory: Lent::new(&random.numbers(directory)),
        steps: Vec::new(),
    };
    for _ in 0..1 + random.below(60) {
        let step = step(random, &history);
        history.steps.push(step);
    }
    history
}

/// A quote or a take of a new job, of an earlier one or of a revision of one.
fn step(random: &mut Random, history: &History) -> Step {
    let earlier = match random.below(3) {
        0 => None,
        _ if history.steps.is_empty() => None,
        _ => Some(&history.steps[random.below(history.steps.len())].job),
    };
    let job = match earlier {
        Some(job) if random.once_in(4) => job.to_vec(),
        Some(job) => jobs::revision(random, job),
        None => {
            let most = random.pick(&[3, 30, 150, 3 * history.window as usize]);
            let length = random.below(most + 1);
            jobs::job(random, history.window, length)
        }
    };
    let places = if random.once_in(8) {
        random.below(12)
    } else {
        1 + job.len() / 2
    };
    Step {
        takes: !random.once_in(3),
        recipe: forging::recipe(random, places),
        job: Lent::new(&job),
    }
}
