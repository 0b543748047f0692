//! `ReducedSystem::is_valid` of schur.rs: 1 for true, 0 for false.

use pixel_step::slices;

use crate::function::{Answer, Function, count_room};
use crate::systems;

pub const FUNCTION: Function = Function {
    name: "system_is_valid",
    arguments: &systems::asked(count_room(1)),
    rows: &[],
    walk: None,
    generate: systems::generated,
    port: |lent, rooms| {
        slices::system_is_valid(lent.numbers(0), lent.counts(1), rooms.counts[0])
    },
    oracle: |input| Answer::word(u64::from(systems::given(input).is_valid())),
    plain: None,
};
