//! A received frame: steps 1 to 7, R4.1 to R4.7, each at its bounds.

mod common;

use common::{control, data, one_slot, sealed, settings, Bench};
use peer::frame::{self, Data, Heard, LOW_FIRST};
use peer::link::State;

const D: u16 = 16;

/// All frames here have the low byte of FCS first; tests/order.rs has the other order.
fn hear(frame: &[u8], data_reg_len: u16) -> Heard {
    frame::hear(frame, data_reg_len, LOW_FIRST)
}

#[test]
fn step_1_sizes() {
    for size in 0..5 {
        assert_eq!(hear(&vec![0; size], D), Heard::Size);
    }
    assert_eq!(hear(&[0; 5], D), Heard::Length);
    assert_eq!(hear(&data(0, &[1; 11]), 17), hear(&data(0, &[1; 11]), D));
    assert!(matches!(hear(&data(0, &[1; 11]), D), Heard::Data(_)));
    assert_eq!(hear(&data(0, &[1; 12]), D), Heard::Size);
    assert_eq!(hear(&vec![0; 100_000], 1024), Heard::Size);
    assert_eq!(hear(&sealed(&[0x80, 0]), D), Heard::Size);
}

/// What a fresh end answers to a frame, the NAK with it, and what it answers once the mark is set.
fn answers(frame: &[u8]) -> (u8, Vec<u8>, u8) {
    let mut bench = Bench::fresh(settings());
    let outcome = bench.take(0, frame);
    let sent = bench.sent(&outcome).to_vec();
    let again = bench.take(0, frame);
    assert_eq!(again.sent, 0);
    (outcome.answer, sent, again.answer)
}

fn refused_with_nak(answer: u8) -> (u8, Vec<u8>, u8) {
    (answer, control(0xA0), answer)
}

/// The last two sizes are 5 and 6 where only 16 bits of them are counted.
#[test]
fn step_1_refuses_a_size_by_17_whatever_the_sum() {
    for size in [0, 1] {
        assert_eq!(answers(&vec![0; size]), refused_with_nak(17));
    }
    for size in [2, 3, 4, 17, 18, 1024, 65_541, 65_542] {
        for first in [0x03, 0x80, 0xC0, 0x10] {
            let right = sealed(&vec![first; size - 2]);
            assert_eq!(answers(&right), refused_with_nak(17), "{size}");
            let mut wrong = right;
            wrong[size - 1] ^= 1;
            assert_eq!(answers(&wrong), refused_with_nak(17), "{size}");
        }
    }
    assert_eq!(answers(&data(0x03, &[0; 12])), refused_with_nak(17));
}

/// Whatever else is wrong with the frame.
#[test]
fn step_1_refuses_a_sum_by_6() {
    for mut frame in [
        control(0x80),
        control(0x10),
        data(0x80, &[1]),
        control(0x00),
        sealed(&[0x03, 0, 2, 7]),
        data(0x03, &[1]),
        data(0x03, &[1; 11]),
    ] {
        let last = frame.len() - 1;
        frame[last] ^= 0x80;
        assert_eq!(answers(&frame), refused_with_nak(6));
    }
}

#[test]
fn step_1_checksum_in_every_byte() {
    for right in [control(0x80), control(0xC0), data(0x03, &[1, 2, 3])] {
        for place in 0..right.len() {
            for bit in 0..8 {
                let mut wrong = right.clone();
                wrong[place] ^= 1 << bit;
                assert_eq!(hear(&wrong, D), Heard::Sum);
            }
        }
        let mut swapped = right.clone();
        swapped.swap(right.len() - 1, right.len() - 2);
        assert_eq!(hear(&swapped, D), Heard::Sum);
    }
}

/// The sum is looked for at the end of the frame, not where LEN would put it.
#[test]
fn step_1_sum_is_at_the_end() {
    let mut frame = data(0x03, &[1, 2, 3]);
    frame.push(1);
    assert_eq!(hear(&frame, D), Heard::Sum);
}

/// A sum that starts at 0 and comes low byte first stays right when zeros follow,
/// so it is the later steps that refuse such a frame.
#[test]
fn step_1_lets_zeros_behind_a_frame_pass() {
    for (mut frame, heard) in [
        (data(0x03, &[1, 2, 3]), Heard::Length),
        (control(0x80), Heard::ControlSize),
        (control(0x84), Heard::Code),
    ] {
        frame.push(0);
        assert_eq!(hear(&frame, D), heard);
        frame.push(0);
        assert_eq!(hear(&frame, D), heard);
    }
}

#[test]
fn step_2_every_code() {
    let mut used = 0;
    for fctr in 0..=u8::MAX {
        let expected = match fctr {
            0x00..=0x0F | 0x20..=0x2F => Heard::Length,
            0x80..=0x83 => Heard::Ack(fctr & 3),
            0xA0..=0xA3 => Heard::Nak(fctr & 3),
            0xC0 => Heard::Reset,
            _ => Heard::Code,
        };
        used += u32::from(expected != Heard::Code);
        assert_eq!(hear(&control(fctr), D), expected, "{fctr:02X}");
    }
    assert_eq!(used, 41);
}

#[test]
fn step_2_comes_before_3_and_4() {
    assert_eq!(hear(&data(0x84, &[0]), D), Heard::Code);
    assert_eq!(hear(&data(0xC1, &[0]), D), Heard::Code);
    assert_eq!(hear(&sealed(&[0x10, 9, 9, 9]), D), Heard::Code);
}

#[test]
fn step_3_control_frames() {
    for fctr in [0x80, 0x83, 0xA0, 0xA3, 0xC0] {
        for wrong in [
            sealed(&[fctr, 0, 0, 0]),
            sealed(&[fctr, 0, 1, 0]),
            sealed(&[fctr, 0, 1]),
            sealed(&[fctr, 1, 0]),
        ] {
            assert_eq!(hear(&wrong, D), Heard::ControlSize);
            let mut bench = Bench::waiting(settings(), 2);
            let before = bench.clone();
            let outcome = bench.take(99, &wrong);
            before.assert_untouched(&bench, &outcome, 8, "step 3");
        }
    }
}

#[test]
fn step_4_lengths() {
    for fctr in [0x00, 0x0F, 0x20, 0x2F] {
        for wrong in [
            sealed(&[fctr, 0, 0]),
            sealed(&[fctr, 0, 1]),
            sealed(&[fctr, 0, 0, 7]),
            sealed(&[fctr, 0, 2, 7]),
            sealed(&[fctr, 1, 1, 7]),
            sealed(&[fctr, 1, 0, 7]),
            sealed(&[fctr, 0, 1, 7, 7]),
        ] {
            assert_eq!(hear(&wrong, D), Heard::Length);
            assert_eq!(answers(&wrong), refused_with_nak(18));
        }
        let right = Data {
            number: fctr >> 2 & 3,
            nak: fctr & 0x20 != 0,
            k: fctr & 3,
            length: 1,
        };
        assert_eq!(hear(&data(fctr, &[7]), D), Heard::Data(right));
    }
}

#[test]
fn steps_1_2_and_4_use_nothing_else_of_the_frame() {
    for fctr in [0x00, 0x20] {
        let mut bench = Bench::waiting(settings(), 2);
        let before = bench.state;
        let outcome = bench.take(5, &sealed(&[fctr, 0, 2, 7]));
        assert_eq!(outcome.answer, 18);
        assert_eq!(bench.sent(&outcome), control(0xA0));
        assert_eq!(
            bench.state,
            State {
                nak_mark: true,
                ..before
            }
        );
    }
}

#[test]
fn nak_names_the_expected_number_and_is_sent_once() {
    let mut bench = Bench::fresh(settings());
    for number in 0..6u8 {
        let outcome = bench.take(0, &[]);
        assert_eq!((outcome.answer, outcome.sent), (17, 5));
        assert_eq!(bench.sent(&outcome), control(0xA0 | number & 3));
        let outcome = bench.take(0, &control(0x90));
        assert_eq!((outcome.answer, outcome.sent), (7, 0));
        let outcome = bench.take(0, &data((number & 3) << 2 | 3, &[number]));
        assert_eq!((outcome.answer, outcome.delivered), (0, 1));
        assert!(!bench.state.nak_mark);
    }
}

/// Not by time, submit, ACK, 9, a control ACK or a look.
#[test]
fn only_delivery_and_fresh_clear_the_mark() {
    let mut bench = Bench::waiting(settings(), 1);
    bench.take(0, &[]);
    bench.submit(1, &[1]);
    bench.take(2, &control(0x80));
    bench.take(3, &data(0x0B, &[1]));
    bench.look(100);
    bench.acknowledge(100);
    assert!(bench.state.nak_mark);
    bench.take(4, &control(0xC0));
    assert!(!bench.state.nak_mark);
}

#[test]
fn nak_leaves_the_acknowledge_timer() {
    let mut bench = Bench::fresh(settings());
    bench.take(7, &data(0x03, &[1]));
    bench.take(8, &[]);
    assert!(bench.state.acking);
    assert_eq!(bench.state.acknowledge_start, 7);
}

#[test]
fn step_5_reset() {
    for packets in 0..=2 {
        let mut bench = Bench::waiting(settings(), packets);
        bench.take(4, &data(0x03, &[1]));
        bench.take(4, &[]);
        let slots = bench.slots.clone();
        let outcome = bench.take(9, &control(0xC0));
        assert_eq!((outcome.answer, outcome.sent), (0, 0));
        assert_eq!((outcome.delivered, outcome.dropped), (0, packets));
        assert_eq!(bench.state, State::fresh(settings()));
        assert_eq!(bench.slots, slots);
    }
}

/// Sends packets until `next` is reached, with the last `waiting` of them unacknowledged.
fn advanced(next: u8, waiting: u8) -> Bench {
    let mut bench = Bench::fresh(settings());
    for number in 0..next {
        assert_eq!(bench.submit(0, &[number]).answer, 0);
        if number + waiting < next {
            bench.take(0, &control(0x80 | number & 3));
        }
    }
    assert_eq!(bench.state.waiting, waiting);
    bench
}

#[test]
fn step_6_ack_frees_up_to_k() {
    for next in 2..8u8 {
        for k in 0..4u8 {
            let mut bench = advanced(next, 2);
            let before = bench.state;
            let outcome = bench.take(9, &control(0x80 | k));
            let left = match k {
                _ if k == next.wrapping_sub(2) & 3 => 1,
                _ if k == next.wrapping_sub(1) & 3 => 0,
                _ => 2,
            };
            assert_eq!((outcome.answer, outcome.sent, outcome.dropped), (0, 0, 0));
            assert_eq!(
                bench.state,
                State {
                    waiting: left,
                    ..before
                }
            );
        }
    }
}

#[test]
fn step_6_ack_on_a_fresh_end_frees_nothing() {
    for k in 0..4 {
        let mut bench = Bench::fresh(settings());
        let outcome = bench.take(0, &control(0x80 | k));
        assert_eq!((outcome.answer, bench.state), (0, State::fresh(settings())));
    }
}

#[test]
fn step_6_nak_repeats_only_k_and_frees_nothing() {
    for k in 0..4u8 {
        let mut bench = Bench::waiting(settings(), 2);
        let before = bench.state;
        let outcome = bench.take(9, &control(0xA0 | k));
        assert_eq!((outcome.answer, outcome.delivered), (0, 0));
        let mut after = before;
        if k < 2 {
            assert_eq!(bench.sent(&outcome), data(k << 2 | 3, &[0x10 + k]));
            after.repeated[usize::from(k)] = 1;
            after.started[usize::from(k)] = 9;
        } else {
            assert_eq!(bench.sent(&outcome), []);
        }
        assert_eq!(bench.state, after);
    }
}

#[test]
fn step_6_nak_of_an_exhausted_packet_does_nothing() {
    let mut bench = Bench::waiting(one_slot(), 1);
    for count in 1..=2 {
        assert_eq!(bench.take(1, &control(0xA0)).sent, 6);
        assert_eq!(bench.state.repeated[0], count);
    }
    let before = bench.clone();
    let outcome = bench.take(1, &control(0xA0));
    before.assert_untouched(&bench, &outcome, 0, "exhausted");
}

#[test]
fn step_7_delivery() {
    let mut bench = Bench::fresh(settings());
    for number in 0..9u8 {
        let frame = data((number & 3) << 2 | 3, &[number; 11]);
        let outcome = bench.take(u32::from(number), &frame);
        assert_eq!((outcome.answer, outcome.sent), (0, 0));
        assert_eq!(outcome.delivered, 11);
        assert_eq!(bench.state.expected, (number + 1) & 3);
        assert_eq!(bench.state.last_correct(), number & 3);
        // starts unless it runs
        assert!(bench.state.acking);
        assert_eq!(bench.state.acknowledge_start, 0);
    }
}

#[test]
fn step_7_any_other_number_is_9() {
    for number in 1..4u8 {
        let mut bench = Bench::fresh(settings());
        bench.state.acking = true;
        bench.state.acknowledge_start = 77;
        let outcome = bench.take(5, &data(number << 2, &[1]));
        assert_eq!((outcome.answer, outcome.delivered), (9, 0));
        assert_eq!(bench.sent(&outcome), control(0x83));
        let stopped = State {
            acknowledge_start: 77,
            ..State::fresh(settings())
        };
        assert_eq!(bench.state, stopped);
    }
}

/// The ACK in it is obeyed though the number is not expected, and the other way round.
#[test]
fn steps_6_and_7_are_apart() {
    let mut bench = Bench::waiting(settings(), 2);
    assert_eq!(bench.take(0, &data(0x08, &[1])).answer, 9);
    assert_eq!(bench.state.waiting, 1);
    assert_eq!(bench.take(0, &data(0x03, &[1])).delivered, 1);
    assert_eq!(bench.state.waiting, 1);
}

#[test]
fn nak_in_expected_data_repeats_with_the_new_last_correct() {
    for running in [false, true] {
        let mut bench = Bench::waiting(settings(), 2);
        bench.state.acking = running;
        bench.state.acknowledge_start = 77;
        bench.state.nak_mark = true;
        let outcome = bench.take(5, &data(0x20, &[1, 2]));
        assert_eq!((outcome.answer, outcome.delivered), (0, 2));
        assert_eq!(bench.sent(&outcome), data(0x00, &[0x10]));
        assert!(!bench.state.acking);
        assert!(!bench.state.nak_mark);
        assert_eq!(bench.state.acknowledge_start, if running { 77 } else { 5 });
        assert_eq!(bench.state.repeated, [1, 0]);
        assert_eq!(bench.state.started, [5, 0]);
        assert_eq!(bench.state.waiting, 2);
    }
}

#[test]
fn nak_in_unexpected_data_repeats_instead_of_the_ack() {
    let mut bench = Bench::waiting(settings(), 2);
    bench.state.acking = true;
    let outcome = bench.take(5, &data(0x20 | 0x08 | 0x01, &[1]));
    assert_eq!((outcome.answer, outcome.delivered), (9, 0));
    assert_eq!(bench.sent(&outcome), data(0x04 | 0x03, &[0x11]));
    assert!(!bench.state.acking);
    assert_eq!(bench.state.repeated, [0, 1]);
}

#[test]
fn nak_in_data_that_cannot_be_obeyed() {
    for (k, repeated) in [(0, 2), (2, 0)] {
        let mut bench = Bench::waiting(settings(), 1);
        bench.state.repeated[0] = repeated;
        let mut copy = bench.clone();
        let outcome = copy.take(5, &data(0x20 | k, &[1]));
        assert_eq!((outcome.answer, outcome.sent, outcome.delivered), (0, 0, 1));
        let outcome = bench.take(5, &data(0x24 | k, &[1]));
        assert_eq!(outcome.answer, 9);
        assert_eq!(bench.sent(&outcome), control(0x83));
    }
}
