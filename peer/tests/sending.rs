//! Sending, timers and becoming fresh.

mod common;

use common::{control, data, one_slot, settings, Bench, SLOT_FILL};
use peer::link::State;

#[test]
fn submit_writes_its_slot_and_nothing_else() {
    let mut bench = Bench::fresh(settings());
    bench.slots.extend([SLOT_FILL; 3]);
    let outcome = bench.submit(5, &[1, 2, 3]);
    assert_eq!((outcome.answer, outcome.sent), (0, 8));
    assert_eq!(bench.sent(&outcome), data(0x03, &[1, 2, 3]));
    let mut slots = vec![SLOT_FILL; 25];
    slots[..3].copy_from_slice(&[1, 2, 3]);
    assert_eq!(bench.slots, slots);
    let outcome = bench.submit(6, &[9; 11]);
    assert_eq!(bench.sent(&outcome), data(0x07, &[9; 11]));
    slots[11..22].fill(9);
    assert_eq!(bench.slots, slots);
    let state = State {
        next: 2,
        waiting: 2,
        length: [3, 11],
        started: [5, 6],
        ..State::fresh(settings())
    };
    assert_eq!(bench.state, state);
}

#[test]
fn submit_with_one_slot_runs_through_all_numbers() {
    let mut bench = Bench::fresh(one_slot());
    for number in 0..9u8 {
        let outcome = bench.submit(u32::from(number), &[number]);
        assert_eq!(bench.sent(&outcome), data((number & 3) << 2 | 3, &[number]));
        assert_eq!(bench.slots[0], number);
        assert_eq!(bench.state.length, [1, 0]);
        assert_eq!(bench.state.started, [u32::from(number), 0]);
        bench.take(0, &control(0x80 | number & 3));
        assert_eq!(bench.state.waiting, 0);
    }
}

#[test]
fn submit_sets_the_count_to_0_and_stops_the_acknowledge_timer() {
    let mut bench = Bench::fresh(one_slot());
    bench.state.repeated = [2, 2];
    bench.state.expected = 2;
    bench.state.acking = true;
    bench.state.acknowledge_start = 3;
    let outcome = bench.submit(9, &[5]);
    assert_eq!(bench.sent(&outcome), data(0x01, &[5]));
    assert_eq!(bench.state.repeated, [0, 2]);
    assert!(!bench.state.acking);
    assert_eq!(bench.state.acknowledge_start, 3);
}

#[test]
fn freeing_leaves_length_start_and_count() {
    let mut bench = Bench::waiting(settings(), 2);
    bench.take(7, &control(0xA1));
    let before = bench.state;
    bench.take(8, &control(0x81));
    assert_eq!(
        bench.state,
        State {
            waiting: 0,
            ..before
        }
    );
}

#[test]
fn packet_timer_is_due_at_its_timeout() {
    for start in [0, 1000, u32::MAX - 3] {
        for (gone, sent) in [
            (0, 0),
            (9, 0),
            (10, 6),
            (11, 6),
            (1 << 31, 6),
            (u32::MAX, 6),
        ] {
            let mut bench = Bench::fresh(settings());
            bench.submit(start, &[4]);
            let now = start.wrapping_add(gone);
            let outcome = bench.look(now);
            assert_eq!((outcome.answer, outcome.sent), (0, sent), "{start} {gone}");
            if sent > 0 {
                assert_eq!(bench.sent(&outcome), data(0x03, &[4]));
                assert_eq!(bench.state.started[0], now);
                assert_eq!(bench.state.repeated[0], 1);
            }
        }
    }
}

#[test]
fn acknowledge_timer_is_due_at_its_timeout() {
    for start in [0, 1000, u32::MAX] {
        for (gone, sent) in [(0, 0), (3, 0), (4, 5), (5, 5), (u32::MAX, 5)] {
            let mut bench = Bench::fresh(settings());
            bench.take(start, &data(0x03, &[4]));
            let outcome = bench.look(start.wrapping_add(gone));
            assert_eq!((outcome.answer, outcome.sent), (0, sent), "{start} {gone}");
            assert_eq!(bench.state.acking, sent == 0);
            assert_eq!(bench.state.acknowledge_start, start);
            if sent > 0 {
                assert_eq!(bench.sent(&outcome), control(0x80));
            }
        }
    }
}

/// Numbers 3 and 0 wait; 3 is the older though its slot and number are the higher.
fn older_is_3(started: [u32; 2], repeated: [u8; 2]) -> Bench {
    let mut bench = Bench::with(State {
        next: 1,
        waiting: 2,
        length: [1, 2],
        started,
        repeated,
        acking: true,
        ..State::fresh(settings())
    });
    bench.slots[0] = 0xA0;
    bench.slots[11..13].copy_from_slice(&[0xA3, 0xB3]);
    bench
}

#[test]
fn look_serves_the_oldest_then_the_newer_then_the_ack() {
    let mut bench = older_is_3([0, 50], [0, 0]);
    let outcome = bench.look(100);
    assert_eq!(bench.sent(&outcome), data(0x0F, &[0xA3, 0xB3]));
    let outcome = bench.look(100);
    assert_eq!(bench.sent(&outcome), data(0x03, &[0xA0]));
    bench.state.acking = true;
    let outcome = bench.look(100);
    assert_eq!(bench.sent(&outcome), control(0x83));
    let outcome = bench.look(100);
    assert_eq!((outcome.answer, outcome.sent), (0, 0));
}

#[test]
fn look_serves_the_newer_when_only_it_is_due() {
    let mut bench = older_is_3([90, 91], [0, 2]);
    let outcome = bench.look(100);
    assert_eq!(bench.sent(&outcome), data(0x03, &[0xA0]));
    assert_eq!(bench.state.repeated, [1, 2]);
}

#[test]
fn look_loses_when_the_due_packet_is_exhausted() {
    // the older exhausted, though the newer could be repeated and an ACK is owed
    let mut bench = older_is_3([0, 0], [0, 2]);
    let before = bench.clone();
    let outcome = bench.look(100);
    assert_eq!((outcome.answer, outcome.sent, outcome.dropped), (3, 0, 0));
    assert_eq!(bench.sent(&outcome), []);
    assert_eq!(
        bench.state,
        State {
            lost: true,
            ..before.state
        }
    );
    assert_eq!(bench.slots, before.slots);
    // the newer exhausted: the older goes first, the next look loses
    let mut bench = older_is_3([0, 0], [2, 0]);
    assert_eq!(bench.look(100).sent, 7);
    let before = bench.state;
    assert_eq!(bench.look(100).answer, 3);
    assert_eq!(
        bench.state,
        State {
            lost: true,
            ..before
        }
    );
}

#[test]
fn one_repeat_less_than_allowed_is_made() {
    let mut bench = older_is_3([100, 0], [0, 1]);
    bench.state.waiting = 1;
    bench.state.started[0] = 0;
    assert_eq!(bench.state.oldest(), 0);
    for (now, answer) in [(10, 0), (20, 0), (30, 3)] {
        assert_eq!(bench.look(now).answer, answer);
    }
}

#[test]
fn repeats_are_made_anew() {
    let mut bench = Bench::waiting(settings(), 1);
    for number in 0..3u8 {
        bench.take(1, &data(number << 2 | 3, &[1]));
    }
    bench.slots[0] = 0x77;
    let outcome = bench.look(10);
    assert_eq!(bench.sent(&outcome), data(0x02, &[0x77]));
    assert!(!bench.state.acking);
}

#[test]
fn acknowledge_now() {
    let mut bench = Bench::fresh(settings());
    let before = bench.clone();
    let outcome = bench.acknowledge(5);
    before.assert_untouched(&bench, &outcome, 0, "no timer runs");
    bench.take(3, &data(0x03, &[1]));
    let before = bench.state;
    let outcome = bench.acknowledge(3);
    assert_eq!((outcome.answer, outcome.sent), (0, 5));
    assert_eq!(bench.sent(&outcome), control(0x80));
    assert_eq!(
        bench.state,
        State {
            acking: false,
            ..before
        }
    );
}

#[test]
fn resynchronise_on_any_end() {
    for lost in [false, true] {
        for packets in 0..=2 {
            let mut bench = Bench::waiting(settings(), packets);
            bench.frame.extend([common::FRAME_FILL; 4]);
            bench.state.lost = lost;
            bench.take(0, &[]);
            let slots = bench.slots.clone();
            let outcome = bench.resynchronise(9);
            assert_eq!((outcome.answer, outcome.dropped), (0, packets));
            assert_eq!(bench.sent(&outcome), [0xC0, 0x00, 0x00, 0x9A, 0x0A]);
            assert_eq!(bench.state, State::fresh(settings()));
            assert_eq!(bench.slots, slots);
        }
    }
}

/// Neither reads the clock.
#[test]
fn the_millisecond_of_acknowledge_and_resynchronise_is_unused() {
    let mut bench = Bench::waiting(settings(), 2);
    bench.state.acking = true;
    for now in [0, 9, 10, u32::MAX] {
        let mut copy = bench.clone();
        assert_eq!(copy.acknowledge(now), bench.clone().acknowledge(5));
        let mut copy = bench.clone();
        assert_eq!(copy.resynchronise(now), bench.clone().resynchronise(5));
    }
}
