//! A call of the library and its comparison with the model. A call holds all that it is lent,
//! prefilled, so that what the call leaves is the whole value after it.

use crate::memory::Lent;
use crate::shrink::{Case, Smaller};
use crate::tally::{Operation, Tally};
use std::fmt::Debug;

/// What memory for an answer holds before a call, so that an answer that is not written shows.
const UNWRITTEN: u8 = 0xEE;

/// One call, with the memory that is lent to it.
pub trait Call: Clone + PartialEq + Debug {
    /// The operation that is called.
    const OPERATION: Operation;

    /// Has the library do the work, and gives the refusal.
    fn by_library(&mut self) -> u32;

    /// Has the model do the work, and gives the refusal.
    fn by_model(&mut self) -> u32;

    /// Counts what the call told beside its refusal, where that is counted. `before` is the call before
    /// the work.
    fn count_told(&self, _before: &Self, _refusal: u32, _tally: &mut Tally) {}

    /// Calls that are smaller than this one.
    fn smaller_calls(&self) -> Smaller<'_, Self>;
}

/// Compares what the library and the model do. Gives the refusal and the call as both left it.
pub fn compare<C: Call>(call: &C, tally: &mut Tally) -> Result<(u32, C), String> {
    let (mut library, mut model) = (call.clone(), call.clone());
    let (refusal, expected) = (library.by_library(), model.by_model());
    if refusal == expected && library == model {
        tally.count(C::OPERATION, refusal);
        library.count_told(call, refusal, tally);
        return Ok((refusal, library));
    }
    Err(format!(
        "The library and the model differ in a call of {:?}.\n\
         before the call: {call:#?}\n\
         changed by the library, refusal {refusal}:\n{}\
         changed by the model, refusal {expected}:\n{}",
        C::OPERATION,
        changes(call, &library),
        changes(call, &model)
    ))
}

/// The lines in which a call after the work differs from the call before.
fn changes<C: Call>(before: &C, after: &C) -> String {
    let (before, after) = (format!("{before:#?}"), format!("{after:#?}"));
    let pairs = before.lines().zip(after.lines());
    pairs
        .filter(|(before, after)| before != after)
        .map(|(_, after)| format!("{after}\n"))
        .collect()
}

impl<C: Call> Case for C {
    fn check(&self, tally: &mut Tally) -> Result<(), String> {
        compare(self, tally).map(|_| ())
    }

    fn smaller(&self) -> Smaller<'_, Self> {
        self.smaller_calls()
    }
}

/// Memory for an answer of some numbers.
pub fn unwritten<T: Copy + From<u8>>(length: usize) -> Lent<T> {
    Lent::new(&vec![T::from(UNWRITTEN); length])
}
