//! The second relay, on the papers' examples.

mod journals;
mod keepalives;
mod maps;
mod prices;
mod reasons;
mod renewals;
mod support;
mod terms;
mod worked_examples;
