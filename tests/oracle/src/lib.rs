//! The given Rust, its texts unchanged, under a crate root of our own that names only them.
//! `setup.sh` compares the checkout with the pinned sums and then makes `target/given`, which leads to it.
//! Only a child module sees private functions, so spk.rs and frame.rs are read with one of ours after their text.
#![feature(int_roundings, let_else)]
#![allow(stable_features)]

#[path = "../target/given/daf.rs"]
pub mod daf;
#[path = "../target/frame_and_reach.rs"]
pub mod frame;
#[path = "../target/given/pck.rs"]
pub mod pck;
#[path = "../target/given/pool.rs"]
pub mod pool;
#[path = "../target/spk_and_reach.rs"]
pub mod spk;
#[path = "../target/given/spk_writer.rs"]
pub mod spk_writer;

pub mod kernel;
pub mod words;
pub mod written;
