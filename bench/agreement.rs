//! The comparison of results, which comes before the measuring.

/// Ends the program where a contestant's result differs from the first one's, which is given back.
pub fn agree<T: PartialEq>(
    what: impl Fn() -> String,
    results: impl IntoIterator<Item = (&'static str, T)>,
) -> T {
    let mut results = results.into_iter();
    let (first, expected) = results.next().expect("a contestant");
    for (name, result) in results {
        if result != expected {
            eprintln!("{}: {first} and {name} differ", what());
            std::process::exit(1);
        }
    }
    expected
}

/// A fixed sequence of numbers (xorshift).
pub struct Sequence(pub u64);

impl Sequence {
    /// The next number below `bound`.
    pub fn below(&mut self, bound: u64) -> u64 {
        self.0 ^= self.0 << 13;
        self.0 ^= self.0 >> 7;
        self.0 ^= self.0 << 17;
        (self.0 >> 11) % bound
    }

    /// One of some numbers.
    pub fn one_of<T: Copy>(&mut self, choices: &[T]) -> T {
        choices[self.below(choices.len() as u64) as usize]
    }

    /// A job shorter than `bound`, of few or many different bytes.
    pub fn job(&mut self, bound: u64) -> Vec<u8> {
        let kinds = self.one_of(&[2, 4, 16, 256]);
        (0..self.below(bound))
            .map(|_| self.below(kinds) as u8)
            .collect()
    }
}
