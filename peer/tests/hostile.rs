//! States that no call makes.

mod common;

use common::{Bench, FRAME_FILL, SLOT_FILL};
use peer::link::{Settings, State};
use peer::random::Random;

/// Hostile values in every field and buffers of any length: no call may panic,
/// and 1 and 2 leave everything.
#[test]
fn any_state_at_all() {
    let mut random = Random::new(11);
    let mut seen = [0u32; 10];
    for _ in 0..60_000 {
        let bench = any_bench(&mut random);
        for (call, after, outcome) in bench.every_call() {
            seen[usize::from(outcome.answer)] += 1;
            if matches!(outcome.answer, 1 | 2) {
                bench.assert_untouched(&after, &outcome, outcome.answer, call);
            }
        }
    }
    assert!(seen[0] > 100 && seen[1] > 100 && seen[2] > 100 && seen[3] > 100);
}

fn any_bench(random: &mut Random) -> Bench {
    let settings = Settings {
        data_reg_len: random.pick([0, 3, 5, 15, 16, 17, 1024, 1025, 65_535]),
        transmit_timeout: random.pick([0, 2, 1000, 65_535]),
        acknowledge_timeout: random.pick([0, 1, 65_535]),
        window: random.pick([0, 1, 2, 3, 255]),
        repeats: random.pick([0, 1, 4, 255]),
        order: random.pick([0, 1, 2, 255]),
    };
    let settings = match random.below(2) {
        0 => common::settings(),
        _ => settings,
    };
    let field = |random: &mut Random| random.pick([0, 1, 2, 3, 4, 255]);
    let state = State {
        settings,
        next: field(random),
        expected: field(random),
        waiting: field(random),
        length: [random.pick([0, 1, 11, 65_535]), random.pick([1, 12])],
        started: [random.u32(), random.u32()],
        repeated: [field(random), random.pick([0, 1, 2])],
        acking: random.percent(50),
        acknowledge_start: random.u32(),
        nak_mark: random.percent(50),
        lost: random.percent(20),
    };
    Bench {
        state,
        slots: vec![SLOT_FILL; random.pick([0, 21, 22, 100])],
        frame: vec![FRAME_FILL; random.pick([0, 15, 16, 100])],
    }
}
