//! The declarations of hirunvel.h for Rust. The header says what each function reads and writes, what a refusal leaves,
//! and what the caller must guarantee.
//!
//!     #[path = "include/hirunvel.rs"]
//!     mod hirunvel;
//!
//! Build with `-L native=target/staticlib`.

// A program need not use all of them.
#![allow(dead_code)]

// The grounds on which work is refused; ACCEPTED for none.
pub const ACCEPTED: u32 = 0;
pub const WINDOW: u32 = 1;
pub const UNSOUND: u32 = 2;
pub const JOB_LENGTH: u32 = 3;
pub const MEMORY_LIMIT: u32 = 4;
pub const HEAD: u32 = 5;
pub const RECIPE_FULL: u32 = 6;
pub const DIRECTORY_FULL: u32 = 7;
pub const POOL_FULL: u32 = 8;
pub const CHUNK_NUMBER: u32 = 9;
pub const OUTPUT_SHORT: u32 = 10;
pub const INDEX_LENGTH: u32 = 11;
pub const INDEX: u32 = 12;

// The limits behind the grounds 1, 3 and 4, the bytes of the longest chunk, and the chains of an index.
pub const WINDOW_LIMIT: u32 = 64;
pub const JOB_LIMIT: usize = 16_777_216;
pub const POOL_LIMIT: usize = 67_108_864;
pub const DIRECTORY_LIMIT: usize = 131_070;
pub const RECIPE_LIMIT: usize = 65_535;
pub const CHUNK_LIMIT: u32 = 16_385;
pub const CHAINS: usize = 1_024;

#[link(name = "hirunvel", kind = "static")]
unsafe extern "C" {
    pub fn hirunvel_scanner_open(window: u32, scanner: *mut [u32; 4]) -> u32;
    pub fn hirunvel_scanner_feed(
        scanner: *mut [u32; 4],
        part: *const u8,
        part_len: usize,
        fed: *mut [u64; 4],
    ) -> u32;
    pub fn hirunvel_scanner_finish(scanner: *mut [u32; 4], count: *mut u64) -> u32;
    pub fn hirunvel_store_open(window: u32, head: *mut [u32; 3]) -> u32;
    pub fn hirunvel_store_quote(
        head: *const [u32; 3],
        pool: *const u8,
        pool_len: usize,
        directory: *const u32,
        directory_len: usize,
        index: *const u32,
        index_len: usize,
        recipe: *mut u32,
        recipe_len: usize,
        job: *const u8,
        job_len: usize,
        counts: *mut [u64; 6],
        saving: *mut [i64; 1],
    ) -> u32;
    pub fn hirunvel_store_take(
        head: *mut [u32; 3],
        pool: *mut u8,
        pool_len: usize,
        directory: *mut u32,
        directory_len: usize,
        index: *mut u32,
        index_len: usize,
        recipe: *mut u32,
        recipe_len: usize,
        job: *const u8,
        job_len: usize,
        counts: *mut [u64; 6],
        saving: *mut [i64; 1],
    ) -> u32;
    pub fn hirunvel_store_look(
        head: *const [u32; 3],
        pool: *const u8,
        pool_len: usize,
        directory: *const u32,
        directory_len: usize,
        number: u32,
        stretch: *mut [u64; 2],
    ) -> u32;
    pub fn hirunvel_rebuild(
        head: *const [u32; 3],
        pool: *const u8,
        pool_len: usize,
        directory: *const u32,
        directory_len: usize,
        recipe: *const u32,
        recipe_len: usize,
        output: *mut u8,
        output_len: usize,
        written: *mut [u64; 1],
    ) -> u32;
}
