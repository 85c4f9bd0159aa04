//! What the library and the plain implementations share: the numbers of `include/hirunvel.h`, and its arrays as structs.

pub use crate::hirunvel::{
    ACCEPTED, CHAINS, CHUNK_NUMBER, DIRECTORY_FULL, DIRECTORY_LIMIT, HEAD, INDEX, INDEX_LENGTH,
    JOB_LENGTH, JOB_LIMIT, MEMORY_LIMIT, OUTPUT_SHORT, POOL_FULL, POOL_LIMIT, RECIPE_FULL,
    RECIPE_LIMIT, UNSOUND, WINDOW, WINDOW_LIMIT,
};

/// A scanner: the window, the bytes since the last cut, the place of the largest of them, counted from 1 and first on
/// a tie, and its value.
#[repr(C)]
#[derive(Clone, Copy, PartialEq)]
pub struct Scanner {
    pub window: u32,
    pub count: u32,
    pub place: u32,
    pub value: u32,
}

impl Scanner {
    /// A scanner with no byte since the last cut.
    pub fn fresh(window: u32) -> Self {
        Self {
            window,
            count: 0,
            place: 0,
            value: 0,
        }
    }
}

/// What a feed reports: the bytes consumed; 1 if a cut follows them, else 0; and at a cut the place in the chunk, counted
/// from 1, and the value of the chunk's maximum point, else 0 and 0.
#[repr(C)]
#[derive(Clone, Copy, Default, PartialEq)]
pub struct Fed {
    pub consumed: u64,
    pub cut: u64,
    pub place: u64,
    pub value: u64,
}

/// A store's head: the window, the number of chunks, and the pool's bytes in use.
#[repr(C)]
#[derive(Clone, Copy, PartialEq)]
pub struct Head {
    pub window: u32,
    pub chunks: u32,
    pub filled: u32,
}

impl Head {
    /// The head of a fresh store.
    pub fn fresh(window: u32) -> Self {
        Self {
            window,
            chunks: 0,
            filled: 0,
        }
    }
}

/// What a quote or a take reports: the recipe's length, the bytes of the new chunks and those of the repeated ones, and
/// the job's cuts whose maximum point has a value below 0x20, from 0x20 to 0x7E, and above 0x7E; and the saving.
#[derive(Clone, Copy, Default, PartialEq)]
pub struct Answer {
    pub counts: [u64; 6],
    pub saving: i64,
}
