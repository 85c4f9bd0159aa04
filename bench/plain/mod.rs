//! The operations of the library in plain safe Rust, with the same arguments and the same grounds tested, and a chunker and
//! a store of other kinds.

pub mod chunker;
pub mod gear;
pub mod hash_store;
pub mod index;
pub mod rebuild;
pub mod store;
