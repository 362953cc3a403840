//! The proved explanations of calls and the second ones, what they reach, and whether the relay bears them out.

pub mod agree;
pub mod boundary;
pub mod reached;
pub mod truth;
