//! The proved relay and the second one: calls to make of both, what they reach, and monitors of the allowances, of dead
//! connections, of the term and of the map.

pub mod agree;
pub mod boundary;
pub mod calls;
pub mod compared;
pub mod connection_monitor;
pub mod damage;
pub mod journals;
pub mod keepalives;
pub mod leases;
pub mod made_up;
pub mod map_monitor;
pub mod maps;
mod mistakes;
pub mod monitor;
pub mod noticed;
pub mod prices;
pub mod reached;
pub mod read_maps;
pub mod records;
pub mod replay_starts;
pub mod replays;
pub mod runs;
pub mod single;
pub mod spoiled;
pub mod tables;
pub mod term_monitor;
pub mod terms;
