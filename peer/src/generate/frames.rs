//! Frames made for a given state: right ones, and every kind of wrong one.

use crate::frame;
use crate::link::State;
use crate::random::Random;

/// Any frame, mostly in the order of FCS that the end has, so that the later steps are reached.
pub fn any_frame(random: &mut Random, state: &State) -> Vec<u8> {
    let mut frame = low_first(random, state);
    frame::turn_from_low(&mut frame, state.settings.order);
    if random.percent(5) {
        frame::turn(&mut frame);
    }
    frame
}

/// Chosen so that what it says often concerns what waits. All is made with the low byte of FCS
/// first: turned round it is right and wrong in the same ways in the other order.
fn low_first(random: &mut Random, state: &State) -> Vec<u8> {
    match random.below(100) {
        0..=11 => control(0x80 | number(random, state)),
        12..=27 => control(0xA0 | number(random, state)),
        28..=31 => control(0xC0),
        32..=49 => data(random, state, 0x00),
        50..=65 => data(random, state, 0x20),
        66..=71 => wrong_sum(random, state),
        72..=77 => unused_code(random, state),
        78..=84 => wrong_control(random),
        85..=91 => wrong_length(random, state),
        _ => wrong_size(random, state),
    }
}

/// A frame with bytes changed, lost or added. Where the low byte of FCS goes first a zero
/// behind leaves the sum right, since it is 0 over a frame with its FCS, so that later steps have
/// to refuse the frame.
pub fn damaged(random: &mut Random, frame: &[u8]) -> Vec<u8> {
    let mut frame = frame.to_vec();
    match random.below(9) {
        0 => frame.truncate(random.index(frame.len())),
        1 => frame.push(random.word() as u8),
        2 => frame.push(0),
        3 => frame::turn(&mut frame),
        _ => flip(random, &mut frame),
    }
    frame
}

fn flip(random: &mut Random, frame: &mut [u8]) {
    let place = random.index(frame.len());
    if let Some(byte) = frame.get_mut(place) {
        *byte ^= 1 << random.below(8);
    }
}

/// A right checksum behind any bytes.
fn sealed(mut bytes: Vec<u8>) -> Vec<u8> {
    let fcs = frame::fcs(&bytes, frame::LOW_FIRST);
    bytes.extend_from_slice(&fcs);
    bytes
}

fn with_length(fctr: u8, length: u16, body: &[u8]) -> Vec<u8> {
    let [high, low] = length.to_be_bytes();
    let mut bytes = vec![fctr, high, low];
    bytes.extend_from_slice(body);
    sealed(bytes)
}

fn control(fctr: u8) -> Vec<u8> {
    with_length(fctr, 0, &[])
}

/// Mostly one that waits.
fn number(random: &mut Random, state: &State) -> u8 {
    let waiting = state.waiting.min(2);
    if waiting > 0 && random.percent(70) {
        let place = random.u8_between(0, waiting - 1);
        return state.oldest().wrapping_add(place) & 3;
    }
    random.u8_between(0, 3)
}

/// States that are not well-formed may have any D; frames are made for one in range.
fn size_limit(state: &State) -> u16 {
    state.settings.data_reg_len.clamp(16, 1024)
}

fn body(random: &mut Random, state: &State) -> Vec<u8> {
    let limit = size_limit(state) - frame::OVERHEAD;
    let length = match random.below(12) {
        0 => limit,
        1 => limit - 1,
        2 => 1,
        _ => random.u16_between(1, 6),
    };
    random.bytes(length.into())
}

/// Mostly of the data that is expected.
fn data_code(random: &mut Random, state: &State, kind: u8) -> u8 {
    let own = match random.below(10) {
        0..=5 => state.expected & 3,
        6..=7 => state.last_correct(),
        _ => random.u8_between(0, 3),
    };
    kind | own << 2 | number(random, state)
}

fn data(random: &mut Random, state: &State, kind: u8) -> Vec<u8> {
    let fctr = data_code(random, state, kind);
    let body = body(random, state);
    with_length(fctr, body.len() as u16, &body)
}

fn wrong_sum(random: &mut Random, state: &State) -> Vec<u8> {
    let right = match random.below(3) {
        0 => control(random.pick([0x80, 0xA0, 0xC0]) | number(random, state)),
        _ => data(random, state, 0x00),
    };
    damaged(random, &right)
}

fn used(fctr: u8) -> bool {
    matches!(fctr, 0x00..=0x0F | 0x20..=0x2F | 0x80..=0x83 | 0xA0..=0xA3 | 0xC0)
}

/// With the size of a control frame, of a data frame, and with any.
fn unused_code(random: &mut Random, state: &State) -> Vec<u8> {
    let mut fctr = match random.below(4) {
        0 => 0xC1,
        1 => (state.expected & 3) << 2 | 0x10,
        _ => random.word() as u8,
    };
    while used(fctr) {
        fctr = fctr.wrapping_add(0x11);
    }
    match random.below(3) {
        0 => control(fctr),
        1 => with_length(fctr, 1, &[0]),
        _ => {
            let body = body(random, state);
            with_length(fctr, random.word() as u16, &body)
        }
    }
}

/// Step 3: a size that is not 5, a LEN that is not 0, or both.
fn wrong_control(random: &mut Random) -> Vec<u8> {
    let fctr = match random.below(9) {
        8 => 0xC0,
        other => (other as u8 & 3) | if other < 4 { 0x80 } else { 0xA0 },
    };
    match random.below(5) {
        0 => with_length(fctr, 0, &[0]),
        1 => with_length(fctr, 1, &[0]),
        2 => with_length(fctr, 1, &[]),
        3 => with_length(fctr, 0x0100, &[]),
        _ => with_length(fctr, random.word() as u16 | 1, &[1, 2]),
    }
}

/// Step 4: LEN 0, one too small or too large, wrong in its high byte, the whole frame's size,
/// or any.
fn wrong_length(random: &mut Random, state: &State) -> Vec<u8> {
    let kind = random.pick([0x00, 0x20]);
    let fctr = data_code(random, state, kind);
    let body = body(random, state);
    let length = body.len() as u16;
    match random.below(9) {
        0..=1 => control(fctr),
        2 => with_length(fctr, 0, &body),
        3 => with_length(fctr, length + 1, &body),
        4 => with_length(fctr, length - 1, &body),
        5 => with_length(fctr, length ^ 0x0100, &body),
        6 => with_length(fctr, length + frame::OVERHEAD, &body),
        7 => with_length(fctr, random.word() as u16, &body),
        _ => with_length(fctr, 1, &[]),
    }
}

/// Step 1 about its bounds, with a right sum and with a wrong one; now and then as much as a
/// line can hold.
fn wrong_size(random: &mut Random, state: &State) -> Vec<u8> {
    if random.below(100) == 0 {
        return vec![0; 8192];
    }
    match random.below(8) {
        0 => Vec::new(),
        1 => {
            let size = 1 + random.index(4);
            random.bytes(size)
        }
        2..=3 => {
            let covered = random.index(3);
            sealed(random.bytes(covered))
        }
        _ => too_long(random, state),
    }
}

/// Right but for its size; right as far as its LEN goes, with zeros behind, which leave the sum
/// right; or of any code and LEN. The sum of some is wrong besides.
fn too_long(random: &mut Random, state: &State) -> Vec<u8> {
    let more = random.u16_between(1, 12);
    let size = size_limit(state) + random.pick([1, 1, 2, more]);
    let mut frame = match random.below(3) {
        0 => {
            let fctr = data_code(random, state, 0x00);
            let length = size - frame::OVERHEAD;
            with_length(fctr, length, &random.bytes(length.into()))
        }
        1 => {
            let mut frame = data(random, state, 0x00);
            frame.resize(size.into(), 0);
            frame
        }
        _ => sealed(random.bytes(usize::from(size) - 2)),
    };
    if random.percent(50) {
        flip(random, &mut frame);
    }
    frame
}
