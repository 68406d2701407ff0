//! Stand-ins for what thermostat.rs imports: its types, codes, contexts and futures. None of them decides anything.

pub mod decl;
pub mod dm;
pub mod error;
pub mod persist;
pub mod tlv;
pub mod utils;
