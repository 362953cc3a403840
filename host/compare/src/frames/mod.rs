//! Messages on a TCP stream: the compiled reader and writer of include/svsc_frames.h and the second ones, compared call by
//! call, and what the comparisons reach.

pub mod agree;
pub mod boundary;
pub mod cuts;
pub mod damage;
pub mod kinds;
pub mod states;
pub mod streams;
pub mod writes;
