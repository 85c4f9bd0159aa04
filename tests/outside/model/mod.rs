//! The model: the operations as the scope describes them, written for plainness and not for speed.
//! Each takes the memory that the library is lent, leaves there what the library should leave, and
//! gives the number of the refusal.

pub mod chunks;
pub mod index;
pub mod scanner;
pub mod store;

/// No ground holds: the work is done.
pub const ACCEPTED: u32 = 0;
/// The window is not 1 to `WINDOW_LIMIT`.
pub const WINDOW: u32 = 1;
/// The scanner is not sound.
pub const UNSOUND: u32 = 2;
/// The job is empty or longer than `JOB_LIMIT`.
pub const JOB_LENGTH: u32 = 3;
/// Lent memory is over its limit, or the directory's length is odd.
pub const MEMORY_LIMIT: u32 = 4;
/// The head does not fit pool and directory.
pub const HEAD: u32 = 5;
/// At this chunk, the recipe is full.
pub const RECIPE_FULL: u32 = 6;
/// This chunk is new and the directory has no unused entry.
pub const DIRECTORY_FULL: u32 = 7;
/// This chunk is new and longer than the pool bytes after filled.
pub const POOL_FULL: u32 = 8;
/// A chunk number is not below the number of chunks.
pub const CHUNK_NUMBER: u32 = 9;
/// The output is shorter than the rebuilt job.
pub const OUTPUT_SHORT: u32 = 10;
/// The index has another length than its chains and the directory's entries.
pub const INDEX_LENGTH: u32 = 11;
/// The index's chains do not meet every chunk just once under its own sum, and nothing else.
pub const INDEX: u32 = 12;

/// The largest window.
pub const WINDOW_LIMIT: u32 = 64;
/// The most bytes of a job.
pub const JOB_LIMIT: usize = 16_777_216;
/// The most bytes of a pool.
pub const POOL_LIMIT: usize = 67_108_864;
/// The most numbers of a directory.
pub const DIRECTORY_LIMIT: usize = 131_070;
/// The most numbers of a recipe.
pub const RECIPE_LIMIT: usize = 65_535;

/// The chains of an index.
pub const CHAINS: usize = 1_024;

/// The bytes of a recipe number on the link.
pub const NUMBER_BYTES: usize = 2;
/// The bytes of recipe numbers that fill a packet.
pub const PACKET_BYTES: usize = 64;
/// The bytes that a packet is charged at.
pub const PACKET_CHARGE: u64 = 72;

/// Tells whether a window is one of those accepted.
pub fn window_accepted(window: u32) -> bool {
    (1..=WINDOW_LIMIT).contains(&window)
}

/// The longest chunk with this window.
pub fn longest_chunk(window: u32) -> u64 {
    256 * u64::from(window) + 1
}
