//! The product held against the reference, on named cases and on generated ones.

pub mod accepted_requests;
pub mod asked;
pub mod boundaries;
pub mod conversation;
pub mod copies;
pub mod damage;
pub mod draft;
pub mod elections;
pub mod every_state;
pub mod exhaustive;
pub mod expect;
pub mod grants_during_waits;
pub mod guarded;
pub mod kind;
pub mod met;
pub mod named_reports;
pub mod named_settlings;
pub mod named_tables;
pub mod named_traces;
pub mod next_winners;
pub mod reports;
pub mod settlings;
pub mod small_racks;
pub mod stage_bounds;
pub mod state_faults;
pub mod state_maker;
pub mod states;
pub mod tables;
pub mod trace_maker;
pub mod traces;
pub mod waiting_counts;
pub mod well_formed;

use crate::rackstate::Shared;
use kind::Group;

/// How many generated cases of each sort.
pub struct Sizes {
    pub settlings: u64,
    pub tables: u64,
    pub traces: u64,
    pub reports: u64,
    pub states: u64,
}

impl Sizes {
    pub fn times(self, times: u64) -> Sizes {
        Sizes {
            settlings: self.settlings * times,
            tables: self.tables * times,
            traces: self.traces * times,
            reports: self.reports * times,
            states: self.states * times,
        }
    }
}

/// What the cases must not only stay within but also reach.
pub fn bounds() -> Vec<String> {
    [
        stage_bounds::bounds(),
        copies::bounds(),
        waiting_counts::bounds(),
        grants_during_waits::bounds(),
    ]
    .concat()
}

pub fn groups(sizes: &Sizes) -> Vec<Group> {
    let program = Shared::default();
    vec![
        Group::once("known settlings", named_settlings::kinds()),
        Group::once("known tables", named_tables::kinds(&program)),
        Group::once("known traces", named_traces::kinds()),
        Group::once("known reports", named_reports::kinds()),
        Group::once("well-formed states", well_formed::kinds(&program)),
        Group::once("elections", elections::kinds(&program)),
        Group::once("next winners", next_winners::kinds(&program)),
        Group::once("every state", every_state::kinds(&program)),
        Group::once("exhaustive", exhaustive::kinds()),
        Group::once("small racks", small_racks::kinds()),
        Group::of("settlings", sizes.settlings, settlings::kinds()),
        Group::of("tables", sizes.tables, tables::kinds()),
        Group::of("traces", sizes.traces, traces::kinds()),
        Group::of(
            "grants during waits",
            sizes.traces.div_ceil(5),
            grants_during_waits::kinds(),
        ),
        Group::of("reports", sizes.reports, reports::kinds()),
        Group::of("states", sizes.states, states::kinds(&program)),
    ]
}
