//! `ReducedSystem::new` of schur.rs, over memory of any contents.

use oracle::schur::System;
use pixel_step::slices;

use crate::function::{Function, count_state, state};
use crate::systems;

pub const FUNCTION: Function = Function {
    name: "system_new",
    arguments: &[state("system", 45), count_state("counts", 3)],
    rows: &[],
    walk: None,
    generate: systems::generated,
    port: |_, rooms| slices::system_new(rooms.numbers[0], rooms.counts[0]),
    oracle: |_| systems::answer(&System::new(), 0),
    plain: None,
};
