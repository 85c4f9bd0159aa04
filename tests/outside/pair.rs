//! A quote and a take on the same inputs, whose answers must agree.

use crate::call::{compare, Call};
use crate::memory::{Lent, Store};
use crate::model::ACCEPTED;
use crate::shrink::{shrink, Case, Smaller};
use crate::store_calls::{Quote, Take};
use crate::tally::Tally;

/// A job that is quoted and taken, each with this store and this memory for the recipe.
#[derive(Clone, Debug)]
pub struct Pair(pub Take);

impl Pair {
    /// Of this job with this store and this memory for the recipe.
    pub fn new(store: &Store, recipe: &Lent<u32>, job: &[u8]) -> Self {
        Pair(Take::new(store, recipe, job))
    }

    /// Compares quote and take with the model and with each other; where they are refused, all that
    /// they tell must be 0. Gives the refusal and the take as it was left.
    pub fn compare(&self, tally: &mut Tally) -> Result<(u32, Take), String> {
        let Take {
            store, recipe, job, ..
        } = &self.0;
        let (quoted, quote) = compare(&Quote::new(store, recipe, job), tally)?;
        let (taken, take) = compare(&self.0, tally)?;
        let told = take.counts.iter().any(|&count| count > 0) || take.saving[0] != 0;
        let agree = (quoted, quote.answer()) == (taken, take.answer());
        if agree && (taken == ACCEPTED || !told) {
            return Ok((taken, take));
        }
        Err(format!(
            "The quote ends with refusal {quoted} and {quote:#?}\n\
             The take ends with refusal {taken} and {take:#?}"
        ))
    }

    /// Compares and checks that both end with this refusal. Gives the take as it was left.
    pub fn expect(&self, refusal: u32, tally: &mut Tally) -> Result<Take, String> {
        match self.compare(tally) {
            Ok((found, after)) if found == refusal => Ok(after),
            Ok((found, _)) => Err(format!("Refusal {found} came and not {refusal}: {self:#?}")),
            Err(fault) => Err(shrink(self, fault)),
        }
    }
}

impl Case for Pair {
    fn check(&self, tally: &mut Tally) -> Result<(), String> {
        self.compare(tally).map(|_| ())
    }

    fn smaller(&self) -> Smaller<'_, Self> {
        Box::new(self.0.smaller_calls().map(Pair))
    }
}
