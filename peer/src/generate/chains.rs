//! Scenes of cutting and joining.

use super::scribe::Scribe;
use crate::chain::{Joining, MESSAGE_LIMIT};
use crate::random::Random;
use crate::script::{ChainCommand, ChainOutcome, Said};

/// A packet limit m, now and then just outside its range.
fn any_limit(random: &mut Random) -> u16 {
    match random.below(24) {
        0 => 10,
        1 => 1020,
        2 => 1019,
        3 => random.pick([0, 1, 65_535]),
        4 => 272,
        5..=11 => 11,
        _ => random.u16_between(11, 35),
    }
}

/// About every bound of the cutting rules; whole messages of 4,096 bytes are rare
/// because their lines are long.
fn message_size(random: &mut Random, limit: u16) -> u16 {
    let share = limit.clamp(2, 1019) - 1;
    match random.below(32) {
        0 => 0,
        1..=3 => 1,
        4..=5 => share - 1,
        6..=8 => share,
        9..=11 => share + 1,
        12 => 2 * share - 1,
        13..=15 => 2 * share,
        16 => 2 * share + 1,
        17..=18 => 3 * share,
        19 => MESSAGE_LIMIT,
        20 => MESSAGE_LIMIT + 1,
        _ => random.u16_between(1, 80),
    }
}

fn any_index(random: &mut Random, count: u16) -> u32 {
    let count = u32::from(count);
    match random.below(12) {
        0 => count,
        1 => count + 1,
        2 => u32::MAX,
        3 => 65_536,
        4..=5 => count.saturating_sub(1),
        6..=7 => 0,
        _ => random.below(count),
    }
}

fn any_buffer(random: &mut Random, limit: u16) -> u16 {
    let limit = limit.min(1019);
    match random.below(12) {
        0 => limit.saturating_sub(1),
        1 => 0,
        2 => limit + 1,
        3 => limit + 5,
        _ => limit,
    }
}

pub fn cuts(scribe: &mut Scribe) {
    let limit = any_limit(&mut scribe.random);
    let size = message_size(&mut scribe.random, limit);
    let message = scribe.random.bytes(size.into());
    let count = size.div_ceil(limit.clamp(11, 1019) - 1);
    let times = if size > 1000 { 0 } else { 4 };
    for _ in 0..=scribe.random.below(times) {
        let index = any_index(&mut scribe.random, count);
        let buffer = any_buffer(&mut scribe.random, limit);
        scribe.call(ChainCommand::Cut {
            limit,
            index,
            buffer,
            message: &message,
        });
    }
}

/// Mostly just enough. Each join prints the whole room, so longer ones are rare.
fn room(scribe: &mut Scribe) {
    let size = match scribe.random.below(20) {
        0 => 4095,
        1 => 4099,
        2..=4 => 0,
        5 => 100,
        _ => 4096,
    };
    scribe.set(ChainCommand::Room(size));
}

fn any_joining(random: &mut Random, limit: u16) -> Joining {
    let share = limit.clamp(2, 1019) - 1;
    let joined = match random.below(10) {
        0..=1 => 0,
        2..=3 => MESSAGE_LIMIT - share,
        4 => MESSAGE_LIMIT - share + 1,
        5 => MESSAGE_LIMIT,
        6 => random.pick([MESSAGE_LIMIT + 1, 65_535]),
        7 => MESSAGE_LIMIT - 1,
        _ => random.u16_between(0, 200),
    };
    Joining {
        open: random.percent(60),
        joined,
    }
}

pub fn joins(scribe: &mut Scribe) {
    let limit = any_limit(&mut scribe.random);
    room(scribe);
    let joining = match scribe.random.below(2) {
        0 => Joining::default(),
        _ => any_joining(&mut scribe.random, limit),
    };
    scribe.set(ChainCommand::Joining(joining));
    for _ in 0..scribe.random.between(3, 12) {
        if scribe.random.percent(12) {
            let joining = any_joining(&mut scribe.random, limit);
            scribe.set(ChainCommand::Joining(joining));
        }
        let open = scribe.rig.chain.joining.open;
        let packet = match scribe.random.below(8) {
            0..=3 => likely(&mut scribe.random, limit, open),
            4 => secured(&mut scribe.random, limit),
            5 => almost(&mut scribe.random, limit, open),
            _ => unlikely(&mut scribe.random, limit),
        };
        scribe.call(ChainCommand::Join {
            limit,
            packet: &packet,
        });
    }
}

fn with_pctr(random: &mut Random, pctr: u8, size: u16) -> Vec<u8> {
    let mut packet = random.bytes(size.into());
    if let Some(first) = packet.first_mut() {
        *first = pctr;
    }
    packet
}

/// A packet that joining accepts, if nothing else is wrong.
fn likely(random: &mut Random, limit: u16, open: bool) -> Vec<u8> {
    let limit = limit.clamp(11, 1019);
    let some = random.u16_between(2, limit);
    let edge = random.pick([2, limit, some]);
    match (open, random.below(10)) {
        (true, 0..=3) => with_pctr(random, 0x02, limit),
        (true, 4) => with_pctr(random, 0x0A, limit),
        (true, 5) => with_pctr(random, 0x0C, edge),
        (true, _) => with_pctr(random, 0x04, edge),
        (false, 0..=6) => with_pctr(random, 0x01, limit),
        (false, _) => with_pctr(random, 0x00, edge),
    }
}

/// Of the right kind for the moment, but of a size that is not.
fn almost(random: &mut Random, limit: u16, open: bool) -> Vec<u8> {
    let limit = limit.clamp(11, 1019);
    let (one_byte, full) = if open { (0x04, 0x02) } else { (0x00, 0x01) };
    match random.below(3) {
        0 => with_pctr(random, one_byte, 1),
        1 => with_pctr(random, full, limit - 1),
        _ => with_pctr(random, full, limit + 1),
    }
}

/// Refused by 12 alone while no chain is open.
fn secured(random: &mut Random, limit: u16) -> Vec<u8> {
    let limit = limit.clamp(11, 1019);
    let (pctr, size) = random.pick([(0x08, 2), (0x08, limit), (0x09, limit)]);
    with_pctr(random, pctr, size)
}

/// Every fault, and those two at a time that only the order of the rules decides.
fn unlikely(random: &mut Random, limit: u16) -> Vec<u8> {
    let limit = limit.clamp(11, 1019);
    let (pctr, size) = match random.below(14) {
        0 => (0x00, 0),
        1 => (0x02, limit + 1),
        2 => (random.pick([0x10, 0x17, 0x80, 0xF1, 0xFF]), 1),
        3 => (random.pick([0x10, 0x12, 0x48, 0xF7]), limit),
        4 => (random.pick([0x07, 0x0F]), 1),
        5 => (random.pick([0x07, 0x0F]), random.pick([2, limit])),
        6 => (random.pick([0x03, 0x05, 0x06, 0x0B, 0x0D, 0x0E]), limit),
        7 => (random.pick([0x00, 0x01, 0x02, 0x04]), 1),
        8 => (random.pick([0x08, 0x09, 0x0A, 0x0C]), 1),
        9 => (random.pick([0x01, 0x02]), limit - 1),
        10 => (random.pick([0x09, 0x0A]), limit - 1),
        11 => (random.pick([0x00, 0x01, 0x02, 0x04]), limit),
        12 => (0x04, 2),
        _ => (random.word() as u8, random.u16_between(1, limit)),
    };
    with_pctr(random, pctr, size)
}

/// A message cut and joined again, packet by packet.
pub fn round_trip(scribe: &mut Scribe) {
    let limit = scribe.random.u16_between(11, 40);
    let size = scribe.random.u16_between(1, 6 * limit);
    let message = scribe.random.bytes(size.into());
    scribe.set(ChainCommand::Room(MESSAGE_LIMIT));
    scribe.set(ChainCommand::Joining(Joining::default()));
    for index in 0..u32::from(size.div_ceil(limit - 1)) {
        let cut = ChainCommand::Cut {
            limit,
            index,
            buffer: limit,
            message: &message,
        };
        let Some(Said::Chain(ChainOutcome::Cut(piece))) = scribe.call(cut) else {
            return;
        };
        let whole = scribe.rig.chain.packet();
        let packet = whole
            .get(..piece.length.into())
            .unwrap_or_default()
            .to_vec();
        scribe.call(ChainCommand::Join {
            limit,
            packet: &packet,
        });
    }
}
