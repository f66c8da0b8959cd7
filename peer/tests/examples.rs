//! The twelve examples of R10, and R10.14, in both orders of FCS.

mod common;

use common::{ordered, Bench, ORDERS};
use peer::chain::cut;
use peer::checksum::checksum;
use peer::frame::{fcs, Heard};
use peer::link::elapsed;

/// Examples 2 to 6: what FCS covers, and FCS with its low byte first and with its high byte first.
const ENDS: [(&[u8], [[u8; 2]; 2]); 5] = [
    (&[0x80, 0x00, 0x00], [[0xEC, 0x0C], [0x0C, 0xEC]]),
    (&[0x81, 0x00, 0x00], [[0x30, 0x56], [0x56, 0x30]]),
    (&[0xA0, 0x00, 0x00], [[0xD7, 0x0F], [0x0F, 0xD7]]),
    (&[0xC0, 0x00, 0x00], [[0x9A, 0x0A], [0x0A, 0x9A]]),
    (&[0x03, 0x00, 0x01, 0x00], [[0x15, 0x3C], [0x3C, 0x15]]),
];

/// The whole frame of one of the examples 2 to 6.
fn frame(example: usize, order: u8) -> Vec<u8> {
    let (covered, ends) = ENDS[example - 2];
    [covered, &ends[usize::from(order)]].concat()
}

#[test]
fn example_1() {
    assert_eq!(checksum(b"123456789"), 0x2189);
}

#[test]
fn examples_2_to_6() {
    for order in ORDERS {
        for (covered, ends) in ENDS {
            assert_eq!(fcs(covered, order), ends[usize::from(order)]);
        }
    }
}

#[test]
fn examples_2_to_6_as_heard() {
    for order in ORDERS {
        let heard = |example| ordered(order).hear(&frame(example, order));
        assert_eq!(heard(2), Heard::Ack(0));
        assert_eq!(heard(3), Heard::Ack(1));
        assert_eq!(heard(4), Heard::Nak(0));
        assert_eq!(heard(5), Heard::Reset);
        assert!(matches!(heard(6), Heard::Data(data) if (data.number, data.k) == (0, 3)));
    }
}

#[test]
fn examples_2_3_5_and_6_as_sent() {
    for order in ORDERS {
        let mut bench = Bench::fresh(ordered(order));
        let outcome = bench.resynchronise(0);
        assert_eq!(bench.sent(&outcome), frame(5, order));
        let outcome = bench.submit(0, &[0]);
        assert_eq!(bench.sent(&outcome), frame(6, order));
        for (expected, example) in [(1, 2), (2, 3)] {
            bench.state.expected = expected;
            bench.state.acking = true;
            let outcome = bench.acknowledge(0);
            assert_eq!(bench.sent(&outcome), frame(example, order));
        }
    }
}

#[test]
fn example_7() {
    assert_eq!(checksum(&[0; 3]), 0);
    for order in ORDERS {
        let mut bench = Bench::fresh(ordered(order));
        let outcome = bench.take(0, &[0; 5]);
        assert_eq!(outcome.answer, 18);
        assert_eq!(bench.sent(&outcome), frame(4, order));
    }
}

#[test]
fn examples_8_and_9() {
    for order in ORDERS {
        let mut bench = Bench::fresh(ordered(order));
        let outcome = bench.take(0, &frame(6, order));
        assert_eq!((outcome.answer, outcome.sent, outcome.delivered), (0, 0, 1));
        let outcome = bench.take(0, &frame(6, order));
        assert_eq!((outcome.answer, outcome.delivered), (9, 0));
        assert_eq!(bench.sent(&outcome), frame(2, order));
    }
}

/// R10.14, and the other frames likewise.
#[test]
fn examples_2_to_6_in_the_other_order() {
    for order in ORDERS {
        for example in 2..=6 {
            let mut bench = Bench::fresh(ordered(order));
            let outcome = bench.take(0, &frame(example, 1 - order));
            assert_eq!((outcome.answer, outcome.delivered), (6, 0));
            assert_eq!(bench.sent(&outcome), frame(4, order));
        }
    }
}

#[test]
fn example_10() {
    let mut buffer = [0xDD; 11];
    let piece = cut(11, &mut buffer, 0, b"0123456789");
    assert_eq!((piece.answer, piece.length, piece.count), (0, 11, 1));
    assert_eq!(&buffer, b"\x000123456789");
}

#[test]
fn example_11() {
    let mut buffer = [0xDD; 11];
    let first = cut(11, &mut buffer, 0, b"0123456789A");
    assert_eq!((first.answer, first.length, first.count), (0, 11, 2));
    assert_eq!(&buffer, b"\x010123456789");
    let mut buffer = [0xDD; 11];
    let second = cut(11, &mut buffer, 1, b"0123456789A");
    assert_eq!((second.answer, second.length, second.count), (0, 2, 2));
    assert_eq!(&buffer[..3], b"\x04A\xDD");
}

#[test]
fn example_12() {
    assert_eq!(elapsed(4_294_967_290, 4), 10);
}
