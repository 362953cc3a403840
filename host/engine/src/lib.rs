//! The proved engine as Rust sees it. Everything `unsafe` of the workspace stands in this crate.
#![allow(unsafe_code)]

mod aligned;
#[macro_use]
mod on_tables;
pub mod frames;
pub mod reasons;
pub mod relay;
pub mod svsc;

pub use aligned::{aligned_start, RelayBuffer, DATA_ALIGNMENT};
