//! The table of numbers returned: each row just inside and just outside, for every link
//! call it concerns, and the order of the checks.

mod common;

use common::{
    control, data, one_slot, ordered, sealed, settings, Bench, FRAME_FILL, ORDERS, SLOT_FILL,
};
use peer::link::{self, Outcome, Settings, State};
use peer::random::Random;

fn with(change: impl FnOnce(&mut Settings)) -> Settings {
    let mut settings = settings();
    change(&mut settings);
    settings
}

fn settings_outside() -> Vec<Settings> {
    let mut all = Vec::new();
    all.extend([0, 4, 5, 15, 1025, u16::MAX].map(|d| with(|s| s.data_reg_len = d)));
    all.extend([0, 3, 255].map(|w| with(|s| s.window = w)));
    all.extend([0, 1, 4, 1001, u16::MAX].map(|t| with(|s| s.transmit_timeout = t)));
    all.extend([0, 10, 11, u16::MAX].map(|a| with(|s| s.acknowledge_timeout = a)));
    all.extend([0, 5, 255].map(|r| with(|s| s.repeats = r)));
    all.extend([2, 3, 255].map(|o| with(|s| s.order = o)));
    all
}

fn settings_inside() -> Vec<Settings> {
    let mut all = Vec::new();
    all.extend([16, 1024].map(|d| with(|s| s.data_reg_len = d)));
    all.extend([1, 2].map(|w| with(|s| s.window = w)));
    all.extend([(2, 1), (1000, 1), (1000, 999)].map(|(t, a)| {
        with(|s| {
            s.transmit_timeout = t;
            s.acknowledge_timeout = a;
        })
    }));
    all.extend([1, 9].map(|a| with(|s| s.acknowledge_timeout = a)));
    all.extend([1, 4].map(|r| with(|s| s.repeats = r)));
    all.extend(ORDERS.map(ordered));
    all
}

/// One packet of number 1 waits in slot 1.
fn one_waits() -> State {
    State {
        next: 2,
        waiting: 1,
        length: [60_000, 5],
        ..State::fresh(settings())
    }
}

fn states_outside() -> Vec<State> {
    let with_settings = |settings| State {
        settings,
        ..State::default()
    };
    let mut all: Vec<State> = settings_outside().into_iter().map(with_settings).collect();
    all.extend(numbers_outside());
    all.extend(lengths_outside());
    all
}

fn numbers_outside() -> Vec<State> {
    let base = one_waits();
    let mut all = Vec::new();
    all.extend([4, 5, 255].map(|next| State { next, ..base }));
    all.extend([4, 255].map(|expected| State { expected, ..base }));
    all.extend(
        [(settings(), 3), (settings(), 255), (one_slot(), 2)].map(|(settings, waiting)| State {
            settings,
            waiting,
            length: [1; 2],
            ..base
        }),
    );
    all.extend([[3, 0], [0, 3], [255, 0], [0, 255]].map(|repeated| State { repeated, ..base }));
    all.push(State {
        repeated: [0, 3],
        ..State::fresh(one_slot())
    });
    all
}

fn waits(waiting: u8, next: u8, length: [u16; 2]) -> State {
    State {
        waiting,
        next,
        length,
        ..one_waits()
    }
}

fn lengths_outside() -> Vec<State> {
    vec![
        waits(1, 2, [5, 0]),
        waits(1, 2, [5, 12]),
        waits(1, 2, [5, u16::MAX]),
        waits(2, 2, [0, 5]),
        waits(2, 2, [12, 5]),
        waits(2, 2, [5, 0]),
        waits(2, 2, [5, 12]),
        // number 3 waits: in slot 1 of two, in slot 0 of one
        waits(1, 0, [1, 0]),
        State {
            settings: one_slot(),
            ..waits(1, 0, [0, 1])
        },
    ]
}

fn states_inside() -> Vec<State> {
    let base = one_waits();
    let mut all: Vec<State> = settings_inside().into_iter().map(State::fresh).collect();
    all.extend([
        State {
            expected: 3,
            ..base
        },
        State {
            repeated: [2, 2],
            ..base
        },
        State {
            acking: true,
            nak_mark: true,
            acknowledge_start: u32::MAX,
            started: [u32::MAX, 1 << 31],
            ..State::fresh(settings())
        },
    ]);
    all.extend(lengths_inside());
    all
}

fn lengths_inside() -> Vec<State> {
    vec![
        waits(1, 2, [u16::MAX, 1]),
        waits(1, 2, [0, 11]),
        waits(2, 2, [1, 11]),
        waits(2, 3, [11, 1]),
        waits(0, 2, [60_000, u16::MAX]),
        waits(1, 0, [60_000, 1]),
        State {
            settings: one_slot(),
            ..waits(1, 0, [1, 60_000])
        },
    ]
}

#[test]
fn row_1_refuses_ill_formed_states() {
    for state in states_outside() {
        for (slots, frame) in [(2048, 2048), (0, 0)] {
            let bench = Bench {
                state,
                slots: vec![SLOT_FILL; slots],
                frame: vec![FRAME_FILL; frame],
            };
            for (call, after, outcome) in bench.every_call() {
                bench.assert_untouched(&after, &outcome, 1, &format!("{call} {state:?}"));
            }
        }
    }
}

#[test]
fn row_1_lets_well_formed_states_pass() {
    for state in states_inside() {
        for (call, _, outcome) in Bench::with(state).every_call() {
            assert!(
                matches!(outcome.answer, 0 | 5),
                "{call} answers {} to {state:?}",
                outcome.answer
            );
        }
    }
}

#[test]
fn row_1_at_start() {
    for settings in settings_outside() {
        for size in [0, 65_536] {
            let outcome = link::start(settings, &vec![0; size]);
            assert_eq!(outcome.answer, 1, "{settings:?}");
            assert_eq!(outcome.state, State::default());
        }
    }
    for settings in settings_inside() {
        let outcome = link::start(settings, &vec![0; settings.slots_need()]);
        assert_eq!(outcome.answer, 0, "{settings:?}");
        assert_eq!(outcome.state, State::fresh(settings));
        let told = (outcome.sent, outcome.delivered, outcome.dropped);
        assert_eq!(told, (0, 0, 0));
    }
}

/// By the order alone, and before the short buffers are noticed.
#[test]
fn row_1_order() {
    for order in 2..=u8::MAX {
        let outcome = link::start(ordered(order), &[]);
        assert_eq!((outcome.answer, outcome.state), (1, State::default()));
        let mut bench = Bench::fresh(ordered(order));
        bench.frame.pop();
        for (call, after, outcome) in bench.every_call() {
            bench.assert_untouched(&after, &outcome, 1, call);
        }
    }
}

#[test]
fn row_1_zeros_are_answered_1_by_every_call() {
    let bench = Bench::with(State::default());
    for (call, after, outcome) in bench.every_call() {
        bench.assert_untouched(&after, &outcome, 1, call);
    }
}

#[test]
fn row_2_slots_and_frame() {
    for settings in [settings(), one_slot(), with(|s| s.data_reg_len = 1024)] {
        for lost in [false, true] {
            let mut state = State::fresh(settings);
            state.lost = lost;
            let exact = Bench::with(state);
            let (mut slots, mut frame) = (exact.clone(), exact.clone());
            slots.slots.pop();
            frame.frame.pop();
            for bench in [slots, frame] {
                for (call, after, outcome) in bench.every_call() {
                    bench.assert_untouched(&after, &outcome, 2, call);
                }
            }
            for (call, _, outcome) in exact.every_call() {
                assert_ne!(outcome.answer, 2, "{call}");
            }
        }
    }
}

#[test]
fn row_2_at_start() {
    for (settings, need) in [
        (one_slot(), 11),
        (settings(), 22),
        (with(|s| s.data_reg_len = 1024), 2038),
    ] {
        let short = link::start(settings, &vec![0; need - 1]);
        assert_eq!((short.answer, short.state), (2, State::default()));
        assert_eq!(link::start(settings, &vec![0; need]).answer, 0);
        assert_eq!(link::start(settings, &vec![0; need + 1]).answer, 0);
    }
}

#[test]
fn row_2_comes_before_4_and_5() {
    let mut bench = Bench::waiting(settings(), 2);
    bench.frame.pop();
    assert_eq!(bench.submit(0, &[]).answer, 2);
    assert_eq!(bench.submit(0, &[1]).answer, 2);
    assert_eq!(bench.take(0, &[]).answer, 2);
}

#[test]
fn row_3_every_call_but_resynchronise() {
    let mut bench = Bench::waiting(settings(), 2);
    bench.state.lost = true;
    bench.state.acking = true;
    for (call, after, outcome) in bench.every_call() {
        if call != "resynchronise" {
            bench.assert_untouched(&after, &outcome, 3, call);
        }
    }
    let mut copy = bench.clone();
    let outcome = copy.take(0, &control(0xC0));
    bench.assert_untouched(&copy, &outcome, 3, "a reset frame");
    let outcome = bench.resynchronise(0);
    assert_eq!((outcome.answer, outcome.dropped), (0, 2));
    assert_eq!(outcome.state, State::fresh(settings()));
}

#[test]
fn row_3_comes_before_4_5_and_the_frame_steps() {
    let mut bench = Bench::waiting(settings(), 2);
    bench.state.lost = true;
    assert_eq!(bench.submit(0, &[]).answer, 3);
    assert_eq!(bench.submit(0, &[1]).answer, 3);
    assert_eq!(bench.take(0, &[]).answer, 3);
}

#[test]
fn row_4_packet_sizes() {
    for settings in [settings(), with(|s| s.data_reg_len = 1024)] {
        let limit = usize::from(settings.packet_limit());
        let bench = Bench::fresh(settings);
        for (size, answer) in [(0, 4), (1, 0), (limit, 0), (limit + 1, 4), (70_000, 4)] {
            let mut copy = bench.clone();
            let outcome = copy.submit(0, &vec![1; size]);
            assert_eq!(outcome.answer, answer, "{size}");
            if answer == 4 {
                bench.assert_untouched(&copy, &outcome, 4, "packet size");
            }
        }
    }
}

#[test]
fn row_5_full_windows() {
    for (settings, places) in [(one_slot(), 1), (settings(), 2)] {
        let mut bench = Bench::waiting(settings, places - 1);
        assert_eq!(bench.submit(0, &[1]).answer, 0);
        let before = bench.clone();
        let outcome = bench.submit(0, &[1]);
        before.assert_untouched(&bench, &outcome, 5, "full");
        let outcome = bench.submit(0, &[1; 12]);
        before.assert_untouched(&bench, &outcome, 4, "full, and too long");
    }
}

#[test]
fn rows_6_7_17_and_18_leave_the_nak_mark() {
    for (frame, answer) in [
        (vec![0x80, 0, 0, 0, 0], 6),
        (control(0x84), 7),
        (vec![], 17),
        (control(0x00), 18),
    ] {
        let mut bench = Bench::waiting(settings(), 1);
        bench.state.acking = true;
        let before = bench.clone();
        let outcome = bench.take(0, &frame);
        assert_eq!(outcome.answer, answer);
        assert_eq!(bench.sent(&outcome), control(0xA0));
        let marked = State {
            nak_mark: true,
            ..before.state
        };
        assert_eq!(bench.state, marked);
        assert_eq!(bench.slots, before.slots);
        let before = bench.clone();
        let outcome = bench.take(0, &frame);
        before.assert_untouched(&bench, &outcome, answer, "the mark is set");
    }
}

/// Any end that is not lost, with whatever may wait.
fn any_hearing(random: &mut Random) -> Bench {
    let settings = Settings {
        data_reg_len: random.u16_between(16, 40),
        window: random.u8_between(1, 2),
        ..settings()
    };
    let limit = settings.packet_limit();
    let mut bench = Bench::with(State {
        settings,
        next: random.u8_between(0, 3),
        expected: random.u8_between(0, 3),
        waiting: random.u8_between(0, settings.window),
        length: [random.u16_between(1, limit), random.u16_between(1, limit)],
        started: [random.u32(), random.u32()],
        repeated: [random.u8_between(0, 2), random.u8_between(0, 2)],
        acking: random.percent(50),
        acknowledge_start: random.u32(),
        nak_mark: random.percent(50),
        lost: false,
    });
    bench.slots = random.bytes(bench.slots.len());
    bench
}

/// A data frame that would be delivered and its ACK or NAK obeyed, but for its checksum, its
/// size or its LEN.
fn wrong_in_three_ways(random: &mut Random, settings: &Settings, fctr: u8) -> [(u8, Vec<u8>); 3] {
    let limit = settings.packet_limit();
    let size = random.u16_between(2, limit - 1);
    let packet = random.bytes(size.into());
    let mut sum = data(fctr, &packet);
    let place = random.index(sum.len());
    sum[place] ^= 1 << random.below(8);
    let short = data(fctr, &packet)[..random.index(5)].to_vec();
    let over = random.index(3) + 1;
    let long = data(fctr, &random.bytes(usize::from(limit) + over));
    let told = random.pick([0, size - 1, size + 1, size ^ 0x0100]);
    let [high, low] = told.to_be_bytes();
    let length = sealed(&[&[fctr, high, low], packet.as_slice()].concat());
    let wrong_size = if random.percent(50) { short } else { long };
    [(6, sum), (17, wrong_size), (18, length)]
}

/// Outcome, state and frame buffer, all but the answer, are those of the NAK alone.
#[test]
fn rows_6_17_and_18_differ_in_the_answer_alone() {
    let mut random = Random::new(12);
    for _ in 0..5_000 {
        let before = any_hearing(&mut random);
        let state = before.state;
        let fctr = random.pick([0x00, 0x20]) | state.expected << 2 | random.u8_between(0, 3);
        let now = random.u32();
        let right = before.clone().take(now, &data(fctr, &[7]));
        assert_eq!((right.answer, right.delivered), (0, 1));
        let nak = if state.nak_mark {
            Vec::new()
        } else {
            control(0xA0 | state.expected)
        };
        for (answer, frame) in wrong_in_three_ways(&mut random, &state.settings, fctr) {
            let mut bench = before.clone();
            let outcome = bench.take(now, &frame);
            let told = Outcome {
                state: State {
                    nak_mark: true,
                    ..state
                },
                answer,
                sent: nak.len() as u16,
                delivered: 0,
                dropped: 0,
            };
            assert_eq!(outcome, told, "{frame:02X?}");
            assert_eq!(bench.sent(&outcome), nak);
        }
    }
}

#[test]
fn row_8_changes_nothing() {
    let mut bench = Bench::waiting(settings(), 1);
    bench.state.acking = true;
    let before = bench.clone();
    let outcome = bench.take(0, &data(0x80, &[0]));
    before.assert_untouched(&bench, &outcome, 8, "control frame of six bytes");
}

#[test]
fn row_9_step_6_is_done() {
    let mut bench = Bench::waiting(settings(), 2);
    let outcome = bench.take(0, &data(0x04 | 0x01, &[7]));
    assert_eq!((outcome.answer, outcome.delivered), (9, 0));
    assert_eq!(bench.state.waiting, 0);
    assert_eq!(bench.sent(&outcome), control(0x83));
}
