//! The relay as peers see it, over real sockets on free ports.

mod allowance;
mod clocks;
mod costs;
mod deadlines;
mod floods;
mod journal;
mod keepalives;
mod lease_terms;
mod log_lines;
mod numbers;
mod old_sockets;
mod slow_readers;
mod sockets;
mod state;
mod stopping;
mod support;
mod time;
