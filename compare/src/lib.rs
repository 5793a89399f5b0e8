//! An independent reading of the rack's rules, and the means to hold the product against it.
//!
//! The reference is `settling`, `intervals`, `rules`, `table`, `rack`, `next_winner`, `listing`, `waiting`, `figures`, `waiting_report`,
//! `seen_from_c` and `seen_as_bytes`. The product is reached through `entries`, `racktrace`, `rackreport` and `rackstate` alone.

pub mod entries;
pub mod figures;
pub mod folder;
pub mod intervals;
pub mod judge;
pub mod listing;
pub mod next_winner;
pub mod rack;
pub mod rackreport;
pub mod rackstate;
pub mod racktrace;
pub mod report;
pub mod rng;
pub mod rules;
pub mod run;
pub mod running;
pub mod seen_as_bytes;
pub mod seen_from_c;
pub mod settling;
pub mod slowest;
pub mod table;
pub mod waiting;
pub mod waiting_report;
