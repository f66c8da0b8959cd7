//! Cutting and joining: each rule at its bounds, and the order of the rules.

use peer::chain::{cut, join, Joined, Joining, Piece};
use peer::random::Random;

const ROOM_FILL: u8 = 0xEE;

fn room() -> Vec<u8> {
    vec![ROOM_FILL; 4096]
}

fn open(joined: u16) -> Joining {
    Joining { joined, open: true }
}

fn closed(joined: u16) -> Joining {
    Joining {
        joined,
        open: false,
    }
}

fn packet(pctr: u8, size: usize) -> Vec<u8> {
    let mut packet = vec![0x55; size];
    packet[0] = pctr;
    packet
}

/// Joins with m = 11; whatever is refused must leave the room alone.
fn join_11(joining: Joining, packet: &[u8]) -> Joined {
    let mut room = room();
    let joined = join(joining, &mut room, 11, packet);
    if joined.answer != 0 {
        assert!(room.iter().all(|&byte| byte == ROOM_FILL));
    }
    joined
}

fn refused(answer: u8) -> Piece {
    Piece {
        answer,
        length: 0,
        count: 0,
    }
}

#[test]
fn cut_row_1_limits() {
    let mut buffer = [0xDD; 1024];
    for limit in [0, 1, 10, 1020, u16::MAX] {
        assert_eq!(cut(limit, &mut buffer, 0, &[1]), refused(1));
        assert_eq!(cut(limit, &mut [], 9, &[]), refused(1));
    }
    for limit in [11, 1019] {
        assert_eq!(cut(limit, &mut buffer, 0, &[1]).answer, 0);
    }
}

#[test]
fn cut_rows_2_13_and_16_in_this_order() {
    for limit in [11u16, 1019] {
        let size = usize::from(limit);
        let mut short = vec![0xDD; size - 1];
        for (index, message) in [(0, &[1][..]), (0, &[]), (9, &[1])] {
            assert_eq!(cut(limit, &mut short, index, message), refused(2));
        }
        assert!(short.iter().all(|&byte| byte == 0xDD));
        let mut exact = vec![0xDD; size];
        assert_eq!(cut(limit, &mut exact, 9, &[]), refused(13));
        assert_eq!(cut(limit, &mut exact, 9, &[0; 4097]), refused(13));
        assert_eq!(cut(limit, &mut exact, 1, &[1]), refused(16));
        assert_eq!(cut(limit, &mut exact, u32::MAX, &[1; 4096]), refused(16));
        assert_eq!(cut(limit, &mut exact, 65_536, &[1; 4096]), refused(16));
        assert!(exact.iter().all(|&byte| byte == 0xDD));
        assert_eq!(cut(limit, &mut exact, 0, &[1]).answer, 0);
        assert_eq!(cut(limit, &mut exact, 0, &[1; 4096]).answer, 0);
    }
}

#[test]
fn cut_counts() {
    for (size, count, last) in [
        (1, 1, 2),
        (10, 1, 11),
        (11, 2, 2),
        (20, 2, 11),
        (21, 3, 2),
        (30, 3, 11),
        (4096, 410, 7),
    ] {
        let message = vec![0xAB; size];
        let mut buffer = [0xDD; 12];
        let piece = cut(11, &mut buffer, u32::from(count) - 1, &message);
        assert_eq!((piece.answer, piece.length, piece.count), (0, last, count));
        assert_eq!(buffer[0], if count == 1 { 0 } else { 4 });
        assert!(buffer[1..usize::from(last)].iter().all(|&b| b == 0xAB));
        assert!(buffer[usize::from(last)..].iter().all(|&b| b == 0xDD));
        assert_eq!(cut(11, &mut buffer, count.into(), &message), refused(16));
    }
}

#[test]
fn cut_chain_bits() {
    let message: Vec<u8> = (0..35).collect();
    for (index, pctr) in [(0, 1), (1, 2), (2, 2), (3, 4)] {
        let mut buffer = [0xDD; 11];
        let piece = cut(11, &mut buffer, index, &message);
        let begin = index as usize * 10;
        let end = (begin + 10).min(35);
        assert_eq!(buffer[0], pctr);
        assert_eq!(usize::from(piece.length), end - begin + 1);
        assert_eq!(buffer[1..usize::from(piece.length)], message[begin..end]);
    }
}

#[test]
fn join_rows_1_2_and_4_in_this_order() {
    let good = packet(0, 2);
    let mut whole = room();
    let mut short = vec![ROOM_FILL; 4095];
    let plain = |joining, answer| Joined {
        joining,
        answer,
        length: 0,
        fault: 0,
    };
    for limit in [0, 10, 1020, u16::MAX] {
        assert_eq!(join(open(7), &mut whole, limit, &good), plain(open(7), 1));
        assert_eq!(join(open(7), &mut [], limit, &[]), plain(open(7), 1));
    }
    for joined in [4097, u16::MAX] {
        for state in [open(joined), closed(joined)] {
            assert_eq!(join(state, &mut whole, 11, &good), plain(state, 1));
        }
    }
    assert_eq!(join(closed(9), &mut short, 11, &[]), plain(closed(9), 2));
    assert_eq!(join(open(9), &mut short, 11, &good), plain(open(9), 2));
    for state in [open(7), closed(7)] {
        assert_eq!(join(state, &mut whole, 11, &[]), plain(state, 4));
        assert_eq!(join(state, &mut whole, 11, &packet(0, 12)), plain(state, 4));
    }
    assert!(whole.iter().chain(&short).all(|&byte| byte == ROOM_FILL));
    for limit in [11, 1019] {
        let joined = join(closed(4096), &mut whole, limit, &packet(0, limit.into()));
        assert_eq!((joined.answer, joined.length), (0, limit - 1));
    }
    assert_eq!(join(closed(0), &mut [0; 4100], 11, &good).answer, 0);
}

#[test]
fn join_orders_11_15_10_12() {
    for (joining, bytes, answer) in [
        (closed(0), packet(0x17, 1), 11),
        (closed(0), packet(0x10, 1), 11),
        (open(5), packet(0xF2, 11), 11),
        (open(5), packet(0x07, 1), 15),
        (open(5), packet(0x0F, 1), 15),
        (closed(5), packet(0x0F, 1), 15),
        (closed(0), packet(0x07, 2), 10),
        (closed(0), packet(0x08, 1), 10),
        (closed(0), packet(0x09, 10), 10),
        (open(5), packet(0x08, 5), 10),
        (open(5), packet(0x09, 11), 10),
        (closed(0), packet(0x08, 2), 12),
        (closed(0), packet(0x09, 11), 12),
        (closed(9), packet(0x08, 11), 12),
    ] {
        let joined = join_11(joining, &bytes);
        assert_eq!(joined.answer, answer, "{bytes:?}");
        assert_eq!(joined.length, 0);
        assert_eq!(joined.fault, if answer == 10 { 7 } else { 0 });
        let left = match answer {
            11 | 12 => joining,
            _ => closed(0),
        };
        assert_eq!(joined.joining, left);
    }
}

#[test]
fn join_every_chain_fault() {
    for joining in [open(8), closed(8)] {
        for (pctr, size, while_open, while_closed) in [
            (0, 1, 10, 10),
            (0, 2, 10, 0),
            (0, 11, 10, 0),
            (1, 1, 10, 10),
            (1, 10, 10, 10),
            (1, 11, 10, 0),
            (2, 1, 10, 10),
            (2, 10, 10, 10),
            (2, 11, 0, 10),
            (3, 11, 10, 10),
            (4, 1, 10, 10),
            (4, 2, 0, 10),
            (4, 11, 0, 10),
            (5, 11, 10, 10),
            (6, 11, 10, 10),
            (7, 11, 10, 10),
            (3, 1, 10, 10),
            (5, 1, 10, 10),
            (6, 1, 10, 10),
        ] {
            let joined = join_11(joining, &packet(pctr, size));
            let answer = if joining.open {
                while_open
            } else {
                while_closed
            };
            assert_eq!(joined.answer, answer, "{pctr} {size} {joining:?}");
            assert_eq!(joined.fault, if answer == 10 { 7 } else { 0 });
            if answer == 10 {
                assert_eq!(joined.joining, closed(0));
            }
        }
    }
}

#[test]
fn join_places_its_parts() {
    let mut room = room();
    let first = join(closed(99), &mut room, 11, &packet(0x01, 11));
    assert_eq!(
        (first.answer, first.length, first.joining),
        (0, 0, open(10))
    );
    let middle = join(first.joining, &mut room, 11, &packet(0x0A, 11));
    assert_eq!((middle.answer, middle.length), (0, 0));
    assert_eq!(middle.joining, open(20));
    let last = join(middle.joining, &mut room, 11, &packet(0x0C, 2));
    assert_eq!((last.answer, last.length), (0, 21));
    assert_eq!(last.joining, closed(0));
    assert!(room[..21].iter().all(|&byte| byte == 0x55));
    assert!(room[21..].iter().all(|&byte| byte == ROOM_FILL));
}

#[test]
fn join_open_with_nothing_joined() {
    let mut room = room();
    let joined = join(open(0), &mut room, 11, &packet(0x04, 2));
    assert_eq!((joined.answer, joined.length), (0, 1));
    assert_eq!(room[..2], [0x55, ROOM_FILL]);
}

#[test]
fn join_row_14_total() {
    for (joined, pctr, size, answer, length) in [
        (4086, 2, 11, 0, 0),
        (4087, 2, 11, 14, 0),
        (4096, 2, 11, 14, 0),
        (4086, 4, 11, 0, 4096),
        (4095, 4, 2, 0, 4096),
        (4096, 4, 2, 14, 0),
        (4087, 4, 11, 14, 0),
        (4087, 0x0C, 11, 14, 0),
    ] {
        let result = join_11(open(joined), &packet(pctr, size));
        assert_eq!((result.answer, result.length), (answer, length));
        assert_eq!(result.fault, 0);
        let left = if (answer, pctr) == (0, 2) {
            open(4096)
        } else {
            closed(0)
        };
        assert_eq!(result.joining, left);
    }
}

/// A closed chain's joined length counts for nothing.
#[test]
fn join_ignores_what_a_closed_chain_joined() {
    for pctr in [0, 1] {
        let mut room = room();
        let joined = join(closed(4096), &mut room, 11, &packet(pctr, 11));
        assert_eq!(joined.answer, 0);
        assert_eq!(room[10..12], [ROOM_FILL; 2]);
        assert_eq!(room[0], 0x55);
    }
}

#[test]
fn every_cut_message_joins_again() {
    let mut random = Random::new(21);
    for size in (1..60).chain([1018, 1019, 2036, 2037, 4095, 4096]) {
        let message = random.bytes(size);
        for limit in [11, 12, 37, 1018, 1019] {
            let mut room = room();
            let mut joining = Joining::default();
            let mut buffer = vec![0; limit.into()];
            let count = cut(limit, &mut buffer, 0, &message).count;
            for index in 0..count {
                let piece = cut(limit, &mut buffer, index.into(), &message);
                let packet = &buffer[..piece.length.into()];
                let joined = join(joining, &mut room, limit, packet);
                joining = joined.joining;
                let length = if index + 1 == count { size } else { 0 };
                assert_eq!((joined.answer, usize::from(joined.length)), (0, length));
            }
            assert_eq!(room[..size], message);
            assert!(room[size..].iter().all(|&byte| byte == ROOM_FILL));
        }
    }
}

/// Any arguments at all: nothing may panic.
#[test]
fn any_arguments() {
    let mut random = Random::new(22);
    let mut seen = [0u32; 17];
    for _ in 0..20_000 {
        let limit = random.pick([0, 10, 11, 12, 1019, 1020, 65_535]);
        let size = random.pick([0, 1, 2, 10, 11, 12, 1019, 1020]);
        let mut bytes = random.bytes(size);
        if let Some(pctr) = bytes.first_mut() {
            *pctr &= random.pick([0x0F, 0x07, 0xFF]);
        }
        let joining = Joining {
            joined: random.pick([0, 5, 4095, 4096, 4097, 65_535]),
            open: random.percent(60),
        };
        let mut room = vec![ROOM_FILL; random.pick([0, 4095, 4096, 4100])];
        seen[usize::from(join(joining, &mut room, limit, &bytes).answer)] += 1;
        let mut buffer = vec![0; random.pick([0, 11, 1019, 1024])];
        let index = random.pick([0, 1, 409, 410, u32::MAX]);
        let message = vec![1; random.pick([0, 1, 11, 4096, 4097, 70_000])];
        seen[usize::from(cut(limit, &mut buffer, index, &message).answer)] += 1;
    }
    for answer in [0, 1, 2, 4, 10, 11, 12, 13, 14, 15, 16] {
        assert!(seen[answer] > 0, "{answer}");
    }
}
