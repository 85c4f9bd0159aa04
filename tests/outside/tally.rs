//! What was done: how often each operation was called and how often each refusal came.

use crate::forged_index;
use crate::model::{INDEX, INDEX_LENGTH};
use crate::told::Told;

/// An operation of the library.
#[derive(Clone, Copy, PartialEq, Eq, Debug)]
pub enum Operation {
    ScannerOpen,
    Feed,
    Finish,
    StoreOpen,
    Quote,
    Take,
    Look,
    Rebuild,
}

/// The operations, each with its name in the report and the grounds that it tests.
const OPERATIONS: [(Operation, &str, &[u32]); 8] = [
    (Operation::ScannerOpen, "scanner openings", &[1]),
    (Operation::Feed, "feeds", &[1, 2]),
    (Operation::Finish, "finishes", &[1, 2]),
    (Operation::StoreOpen, "store openings", &[1]),
    (Operation::Quote, "quotes", &[1, 3, 4, 5, 11, 12, 6, 7, 8]),
    (Operation::Take, "takes", &[1, 3, 4, 5, 11, 12, 6, 7, 8]),
    (Operation::Look, "looks", &[1, 4, 5, 9]),
    (Operation::Rebuild, "rebuildings", &[1, 4, 5, 9, 10]),
];

/// The names in the report of revisions that were quoted and of those that were taken.
const REVISIONS: [&str; 2] = ["quoted", "taken"];

/// How often each refusal that an operation tests must come in a full run, and how often it must
/// accept.
const LEAST_OUTCOMES: u64 = 20;

/// How many indexes of each kind must be lent in a full run, and how many with which the store holds a
/// chunk of the job twice, the higher number first on its chain.
const LEAST_INDEXES: u64 = 1_000;

/// How often demand 3 must be checked in a full run.
const LEAST_PLACES: u64 = 100_000;

/// How many revisions of each number of changed fields must come near their ceiling in a full run.
const LEAST_NEAR: u64 = 50;

/// Counts of the calls, and of the checks of revisions: first of those that were quoted, then of
/// those that were taken.
#[derive(Default)]
pub struct Tally {
    outcomes: [[u64; 13]; 8],
    promises: [Promises; 2],
    fields: [[Fields; 5]; 2],
    indexes: [u64; forged_index::KINDS],
    higher_first: u64,
    pub told: Told,
}

/// Counts of the checks of demand 3.
#[derive(Default)]
struct Promises {
    /// The places at which it was checked.
    places: u64,
    /// The largest charge in per cent of its ceiling.
    nearest: f64,
}

/// Counts of the revisions that change so many fields and whose ceiling is below their length.
#[derive(Default)]
struct Fields {
    revisions: u64,
    /// Those charged at least 90 % of the ceiling.
    near: u64,
    /// Those charged the whole ceiling.
    met: u64,
}

impl Tally {
    /// Counts a call that ended with this refusal.
    pub fn count(&mut self, operation: Operation, refusal: u32) {
        self.outcomes[operation as usize][refusal as usize] += 1;
    }

    /// Counts a check of demand 3 for a revision that was quoted or taken.
    pub fn count_place(&mut self, taken: bool, charge: u64, ceiling: u64) {
        let promises = &mut self.promises[usize::from(taken)];
        promises.places += 1;
        promises.nearest = promises.nearest.max(charge as f64 * 100.0 / ceiling as f64);
    }

    /// The largest charges in per cent of their ceiling, of revisions that were quoted and taken.
    pub fn nearest(&self) -> [f64; 2] {
        [0, 1].map(|taken: usize| self.promises[taken].nearest)
    }

    /// Counts a revision that was quoted or taken and changes so many fields.
    pub fn count_fields(&mut self, taken: bool, number: usize, charge: u64, ceiling: u64) {
        let fields = &mut self.fields[usize::from(taken)][number];
        fields.revisions += 1;
        fields.near += u64::from(charge * 10 >= ceiling * 9);
        fields.met += u64::from(charge == ceiling);
    }

    /// Counts an index of this kind, lent to a quote and a take.
    pub fn count_index(&mut self, kind: usize) {
        self.indexes[kind] += 1;
    }

    /// Counts an index with which the store holds a chunk of the job twice, the higher number first.
    pub fn count_higher_first(&mut self) {
        self.higher_first += 1;
    }

    /// The number of calls of an operation.
    pub fn calls(&self, operation: Operation) -> u64 {
        self.outcomes[operation as usize].iter().sum()
    }

    /// Tells that an index was refused, if one was: none may be that takes have left.
    pub fn no_index_refused(&self) -> Result<(), String> {
        for (operation, name, _) in OPERATIONS {
            for ground in [INDEX_LENGTH, INDEX] {
                let count = self.outcomes[operation as usize][ground as usize];
                if count > 0 {
                    return Err(format!(
                        "refusal {ground} came {count} times in {name} with indexes that takes have left"
                    ));
                }
            }
        }
        Ok(())
    }

    /// Prints the counts.
    pub fn print(&self) {
        for (operation, name, grounds) in OPERATIONS {
            let outcomes = &self.outcomes[operation as usize];
            print!(
                "{name}: {}, accepted {}",
                self.calls(operation),
                outcomes[0]
            );
            for &ground in grounds {
                print!(", refusal {ground}: {}", outcomes[ground as usize]);
            }
            println!();
        }
        self.told.print();
        for (count, (kind, refusal, _)) in self.indexes.iter().zip(&forged_index::ALL) {
            println!("indexes {kind}: {count}, refusal {refusal}");
        }
        println!(
            "accepted indexes with the higher of two equal chunks first: {}",
            self.higher_first
        );
        for (taken, name) in REVISIONS.iter().enumerate() {
            let Promises { places, nearest } = self.promises[taken];
            println!("revisions {name}: {places} checks of demand 3, largest charge {nearest:.1} % of its ceiling");
            for (number, fields) in self.fields[taken].iter().enumerate() {
                println!(
                    "  fields changed {number}: {}, {} at 90 % of the ceiling or more, {} at the ceiling",
                    fields.revisions, fields.near, fields.met
                );
            }
        }
    }

    /// Tells which count of a full run is too small, if one is.
    pub fn shortfall(&self) -> Result<(), String> {
        let totals = [
            (self.calls(Operation::Feed), 1_000_000, "feeds"),
            (self.calls(Operation::Quote), 100_000, "quotes"),
            (self.calls(Operation::Take), 100_000, "takes"),
        ];
        for (count, least, name) in totals {
            if count < least {
                return Err(format!("only {count} {name}, and {least} are wanted"));
            }
        }
        self.revision_shortfall()?;
        self.index_shortfall()?;
        self.told.shortfall()?;
        for (operation, name, grounds) in OPERATIONS {
            for &ground in [0].iter().chain(grounds) {
                let count = self.outcomes[operation as usize][ground as usize];
                if count < LEAST_OUTCOMES {
                    return Err(format!(
                        "refusal {ground} came only {count} times in {name}"
                    ));
                }
            }
        }
        Ok(())
    }

    /// Tells which count of the indexes is too small, if one is.
    fn index_shortfall(&self) -> Result<(), String> {
        let kinds = forged_index::ALL.iter().map(|kind| kind.0);
        let kinds = self.indexes.iter().zip(kinds);
        let higher_first = (
            &self.higher_first,
            "with the higher of two equal chunks first",
        );
        for (count, kind) in kinds.chain([higher_first]) {
            if *count < LEAST_INDEXES {
                return Err(format!("only {count} indexes {kind}"));
            }
        }
        Ok(())
    }

    /// Tells which count of the checks of revisions is too small, if one is.
    fn revision_shortfall(&self) -> Result<(), String> {
        for (taken, name) in REVISIONS.iter().enumerate() {
            let Promises { places, nearest } = self.promises[taken];
            if places < LEAST_PLACES || nearest < 90.0 {
                return Err(format!(
                    "only {places} checks of revisions {name}, and a charge of {nearest} % of its ceiling"
                ));
            }
            for (number, fields) in self.fields[taken].iter().enumerate() {
                if fields.near < LEAST_NEAR {
                    return Err(format!(
                        "only {} revisions {name} with {number} changed fields came near their ceiling",
                        fields.near
                    ));
                }
            }
        }
        Ok(())
    }
}
