//! The calls on a scanner.

use crate::call::{unwritten, Call};
use crate::library;
use crate::memory::Lent;
use crate::model::chunks::Peak;
use crate::model::scanner;
use crate::shrink::{smaller_bytes, Smaller};
use crate::tally::{Operation, Tally};
use crate::told::Cut;

/// Opening a scanner.
#[derive(Clone, PartialEq, Debug)]
pub struct ScannerOpen {
    pub window: u32,
    pub scanner: Lent<u32>,
}

impl ScannerOpen {
    /// With this window.
    pub fn new(window: u32) -> Self {
        ScannerOpen {
            window,
            scanner: unwritten(4),
        }
    }
}

impl Call for ScannerOpen {
    const OPERATION: Operation = Operation::ScannerOpen;

    fn by_library(&mut self) -> u32 {
        library::scanner_open(self.window, &mut self.scanner)
    }

    fn by_model(&mut self) -> u32 {
        scanner::open(self.window, &mut self.scanner)
    }

    fn smaller_calls(&self) -> Smaller<'_, Self> {
        Box::new(std::iter::empty())
    }
}

/// Feeding a part to a scanner.
#[derive(Clone, PartialEq, Debug)]
pub struct Feed {
    pub scanner: Lent<u32>,
    pub part: Lent<u8>,
    pub fed: Lent<u64>,
}

impl Feed {
    /// Of this part to this scanner.
    pub fn new(scanner: &[u32], part: &[u8]) -> Self {
        Feed {
            scanner: Lent::new(scanner),
            part: Lent::new(part),
            fed: unwritten(4),
        }
    }

    /// The maximum point of the chunk that a cut ends, where the feed told of one.
    pub fn peak(&self) -> Option<Peak> {
        (self.fed[1] == 1).then(|| Peak {
            place: self.fed[2],
            value: self.fed[3],
        })
    }
}

impl Call for Feed {
    const OPERATION: Operation = Operation::Feed;

    fn by_library(&mut self) -> u32 {
        library::scanner_feed(&mut self.scanner, &mut self.part, &mut self.fed)
    }

    fn by_model(&mut self) -> u32 {
        scanner::feed(&mut self.scanner, &self.part, &mut self.fed)
    }

    fn count_told(&self, before: &Self, _refusal: u32, tally: &mut Tally) {
        let Some(Peak { place, value }) = self.peak() else {
            return;
        };
        let earlier = u64::from(before.scanner[1]);
        let start = place.saturating_sub(earlier) as usize;
        let after = &self.part[start..self.fed[0] as usize];
        tally.told.count_cut(&Cut {
            value,
            earlier: place <= earlier,
            tie: after.iter().any(|&byte| u64::from(byte) == value),
        });
    }

    fn smaller_calls(&self) -> Smaller<'_, Self> {
        Box::new(smaller_bytes(&self.part).map(|part| Feed::new(&self.scanner, &part)))
    }
}

/// Finishing a job.
#[derive(Clone, PartialEq, Debug)]
pub struct Finish {
    pub scanner: Lent<u32>,
    pub count: Lent<u64>,
}

impl Finish {
    /// Of the job that this scanner is in.
    pub fn new(scanner: &[u32]) -> Self {
        Finish {
            scanner: Lent::new(scanner),
            count: unwritten(1),
        }
    }
}

impl Call for Finish {
    const OPERATION: Operation = Operation::Finish;

    fn by_library(&mut self) -> u32 {
        library::scanner_finish(&mut self.scanner, &mut self.count)
    }

    fn by_model(&mut self) -> u32 {
        scanner::finish(&mut self.scanner, &mut self.count)
    }

    fn smaller_calls(&self) -> Smaller<'_, Self> {
        Box::new(std::iter::empty())
    }
}
