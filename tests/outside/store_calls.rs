//! The calls on a store.

use crate::call::{unwritten, Call};
use crate::library;
use crate::memory::{Lent, Store};
use crate::model::{store, ACCEPTED};
use crate::shrink::{shorter, smaller_bytes, smaller_stores, without_block, Smaller};
use crate::tally::{Operation, Tally};

/// Opening a store.
#[derive(Clone, PartialEq, Debug)]
pub struct StoreOpen {
    pub window: u32,
    pub head: Lent<u32>,
}

impl StoreOpen {
    /// With this window.
    pub fn new(window: u32) -> Self {
        StoreOpen {
            window,
            head: unwritten(3),
        }
    }
}

impl Call for StoreOpen {
    const OPERATION: Operation = Operation::StoreOpen;

    fn by_library(&mut self) -> u32 {
        library::store_open(self.window, &mut self.head)
    }

    fn by_model(&mut self) -> u32 {
        store::open(self.window, &mut self.head)
    }

    fn smaller_calls(&self) -> Smaller<'_, Self> {
        Box::new(std::iter::empty())
    }
}

/// Quoting a job, or taking it into a store.
#[derive(Clone, PartialEq, Debug)]
pub struct JobCall<const TAKES: bool> {
    pub store: Store,
    pub recipe: Lent<u32>,
    pub job: Lent<u8>,
    pub counts: Lent<u64>,
    pub saving: Lent<i64>,
}

/// Quoting a job.
pub type Quote = JobCall<false>;

/// Taking a job into a store.
pub type Take = JobCall<true>;

impl<const TAKES: bool> JobCall<TAKES> {
    /// Of this job with this store and this memory for the recipe.
    pub fn new(store: &Store, recipe: &Lent<u32>, job: &[u8]) -> Self {
        JobCall {
            store: store.clone(),
            recipe: recipe.clone(),
            job: Lent::new(job),
            counts: unwritten(6),
            saving: unwritten(1),
        }
    }

    /// The recipe that an accepted call left.
    pub fn written_recipe(&self) -> &[u32] {
        &self.recipe[..self.counts[0] as usize]
    }

    /// The three numbers of cuts.
    pub fn cuts_by_value(&self) -> &[u64] {
        &self.counts[3..]
    }

    /// What a quote and a take on the same inputs must leave alike: recipe, counts and saving.
    pub fn answer(&self) -> (&Lent<u32>, &Lent<u64>, &Lent<i64>) {
        (&self.recipe, &self.counts, &self.saving)
    }
}

impl<const TAKES: bool> Call for JobCall<TAKES> {
    const OPERATION: Operation = if TAKES {
        Operation::Take
    } else {
        Operation::Quote
    };

    fn by_library(&mut self) -> u32 {
        let call = if TAKES { library::take } else { library::quote };
        let (store, recipe, job) = (&mut self.store, &mut self.recipe, &mut self.job);
        call(store, recipe, job, &mut self.counts, &mut self.saving)
    }

    fn by_model(&mut self) -> u32 {
        let (counts, saving) = (&mut self.counts, &mut self.saving);
        if TAKES {
            store::take(&mut self.store, &mut self.recipe, &self.job, counts, saving)
        } else {
            store::quote(&self.store, &mut self.recipe, &self.job, counts, saving)
        }
    }

    /// Counts the job. Each chunk before the last or the refused one is ended by a cut.
    fn count_told(&self, before: &Self, refusal: u32, tally: &mut Tally) {
        let after_cut = if refusal == ACCEPTED {
            self.cuts_by_value().iter().sum::<u64>() == self.counts[0]
        } else {
            self.recipe != before.recipe
        };
        tally.told.count_job(refusal, after_cut);
    }

    fn smaller_calls(&self) -> Smaller<'_, Self> {
        let (store, recipe, job) = (&self.store, &self.recipe, &self.job);
        let jobs = smaller_bytes(job).map(|job| JobCall::new(store, recipe, &job));
        let recipes = shorter(recipe).map(|recipe| JobCall::new(store, &recipe, job));
        let stores = smaller_stores(store).map(|store| JobCall::new(&store, recipe, job));
        Box::new(stores.chain(recipes).chain(jobs))
    }
}

/// Looking at a chunk.
#[derive(Clone, PartialEq, Debug)]
pub struct Look {
    pub store: Store,
    pub number: u32,
    pub stretch: Lent<u64>,
}

impl Look {
    /// At the chunk with this number.
    pub fn new(store: &Store, number: u32) -> Self {
        Look {
            store: store.clone(),
            number,
            stretch: unwritten(2),
        }
    }
}

impl Call for Look {
    const OPERATION: Operation = Operation::Look;

    fn by_library(&mut self) -> u32 {
        library::look(&mut self.store, self.number, &mut self.stretch)
    }

    fn by_model(&mut self) -> u32 {
        store::look(&self.store, self.number, &mut self.stretch)
    }

    fn smaller_calls(&self) -> Smaller<'_, Self> {
        Box::new(smaller_stores(&self.store).map(|store| Look::new(&store, self.number)))
    }
}

/// Rebuilding a job.
#[derive(Clone, PartialEq, Debug)]
pub struct Rebuild {
    pub store: Store,
    pub recipe: Lent<u32>,
    pub output: Lent<u8>,
    pub written: Lent<u64>,
}

impl Rebuild {
    /// By this recipe to this output.
    pub fn new(store: &Store, recipe: &[u32], output: &Lent<u8>) -> Self {
        Rebuild {
            store: store.clone(),
            recipe: Lent::new(recipe),
            output: output.clone(),
            written: unwritten(1),
        }
    }
}

impl Call for Rebuild {
    const OPERATION: Operation = Operation::Rebuild;

    fn by_library(&mut self) -> u32 {
        library::rebuild(
            &mut self.store,
            &mut self.recipe,
            &mut self.output,
            &mut self.written,
        )
    }

    fn by_model(&mut self) -> u32 {
        store::rebuild(
            &self.store,
            &self.recipe,
            &mut self.output,
            &mut self.written,
        )
    }

    fn smaller_calls(&self) -> Smaller<'_, Self> {
        let stores = smaller_stores(&self.store)
            .map(|store| Rebuild::new(&store, &self.recipe, &self.output));
        let recipes = without_block(&self.recipe)
            .map(|recipe| Rebuild::new(&self.store, &recipe, &self.output));
        let outputs =
            shorter(&self.output).map(|output| Rebuild::new(&self.store, &self.recipe, &output));
        Box::new(stores.chain(recipes).chain(outputs))
    }
}
