//! Interleaved measuring: each round gives every contestant a turn at every case, in an order that changes from round
//! to round. The lower quartile of all rounds counts: rounds that something else held up do not move it, nor does the
//! one in which every branch was predicted by luck, so that it scatters less than the best.

use std::hint::black_box;
use std::time::{Duration, Instant};

/// A turn of fewer nanoseconds comes twice and is timed the second time, so that it finds its memory in cache.
const SHORT: f64 = 1e6;

/// A name, and a turn at a case.
pub type Contestant<C> = (&'static str, fn(&mut C));

/// What follows a turn: it leaves the case as the next turn has to find it, and is not timed.
pub type Undo<C> = fn(&mut C);

/// The lower quartile of the nanoseconds of a turn, by case and contestant, and the number of rounds.
pub struct Quartiles {
    pub rounds: usize,
    pub nanoseconds: Vec<Vec<f64>>,
}

/// Who has a turn in a round: each round starts with the next contestant, and every other round goes backwards.
fn who(round: usize, turn: usize, contestants: usize) -> usize {
    if round % 2 == 0 {
        (round + turn) % contestants
    } else {
        (round + contestants - turn) % contestants
    }
}

/// Measures for a time, and for as many rounds as there are contestants at least, so that each comes first once.
pub fn quartiles<C>(
    time: Duration,
    cases: &mut [C],
    contestants: &[Contestant<C>],
    undo: Undo<C>,
) -> Quartiles {
    let mut rounds = 0;
    let mut turns = vec![vec![Vec::new(); contestants.len()]; cases.len()];
    let start = Instant::now();
    while rounds < contestants.len() || start.elapsed() < time {
        for (case, turns) in cases.iter_mut().zip(&mut turns) {
            for turn in 0..contestants.len() {
                let which = who(rounds, turn, contestants.len());
                if turns[which].last().is_some_and(|&last| last < SHORT) {
                    contestants[which].1(black_box(case));
                    undo(case);
                }
                let begun = Instant::now();
                contestants[which].1(black_box(case));
                turns[which].push(begun.elapsed().as_nanos() as f64);
                undo(case);
            }
        }
        rounds += 1;
    }
    let of_case = |turns: Vec<_>| turns.into_iter().map(lower_quartile).collect();
    Quartiles {
        rounds,
        nanoseconds: turns.into_iter().map(of_case).collect(),
    }
}

/// The lower quartile of some times.
fn lower_quartile(mut times: Vec<f64>) -> f64 {
    let place = times.len() / 4;
    *times.select_nth_unstable_by(place, f64::total_cmp).1
}
