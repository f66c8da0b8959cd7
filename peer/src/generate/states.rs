//! Scenes that set a state: odd ones, ill-formed ones, timers about to be due,
//! buffers about to be long enough.

use super::frames;
use super::scribe::Scribe;
use crate::frame::ORDERS;
use crate::link::{Settings, State};
use crate::random::Random;
use crate::script::LinkCommand;

/// Mostly a small D, so that lines stay short.
pub fn settings(random: &mut Random) -> Settings {
    let data_reg_len = match random.below(200) {
        0..=1 => 1024,
        2..=5 => 277,
        6..=9 => random.u16_between(41, 80),
        10..=39 => 16,
        _ => random.u16_between(16, 40),
    };
    let transmit_timeout = match random.below(12) {
        0 => 2,
        1 => 1000,
        2 => random.u16_between(2, 1000),
        _ => random.u16_between(3, 30),
    };
    let longest = transmit_timeout - 1;
    let acknowledge_timeout = match random.below(4) {
        0 => 1,
        1 => longest,
        _ => random.u16_between(1, longest),
    };
    Settings {
        data_reg_len,
        transmit_timeout,
        acknowledge_timeout,
        window: random.pick([1, 2, 2]),
        repeats: random.u8_between(1, 4),
        order: random.pick(ORDERS),
    }
}

/// Often close to where the clock wraps.
pub fn clock(random: &mut Random) -> u32 {
    match random.below(6) {
        0 => random.below(4),
        1 => u32::MAX - random.below(4),
        2 => 0u32.wrapping_sub(random.below(40)),
        3 => random.below(40),
        _ => random.u32(),
    }
}

/// Buffers of what the settings need and a little more.
pub fn lend_enough(scribe: &mut Scribe, settings: &Settings) {
    let [more_slots, more_frame] = [scribe.random.index(3), scribe.random.index(3)];
    lend(
        scribe,
        settings.slots_need() + more_slots,
        settings.frame_need() + more_frame,
    );
}

fn lend(scribe: &mut Scribe, slots: usize, frame: usize) {
    let size = |wanted: usize| wanted.min(4096) as u16;
    scribe.set(LinkCommand::Lend {
        slots: size(slots),
        frame: size(frame),
    });
}

/// A start from which the given time has gone by, mostly about the timeout.
fn start_time(random: &mut Random, timeout: u16, now: u32) -> u32 {
    let timeout = u32::from(timeout);
    let gone = match random.below(10) {
        0 => 0,
        1..=2 => timeout - 1,
        3..=5 => timeout,
        6 => timeout + 1,
        7 => u32::MAX,
        8 => 1 << 31,
        _ => random.u32(),
    };
    now.wrapping_sub(gone)
}

/// Any state that row 1 lets pass; what does not wait may have any length.
fn well_formed(random: &mut Random, settings: Settings, now: u32) -> State {
    let limit = settings.packet_limit();
    let free = |random: &mut Random| random.pick([0, 1, limit + 1, 60_000, 65_535]);
    let time = |random: &mut Random| start_time(random, settings.transmit_timeout, now);
    let mut state = State {
        settings,
        next: random.u8_between(0, 3),
        expected: random.u8_between(0, 3),
        waiting: random.u8_between(0, settings.window),
        length: [free(random), free(random)],
        started: [time(random), time(random)],
        repeated: [
            random.u8_between(0, settings.repeats),
            random.u8_between(0, settings.repeats),
        ],
        acking: random.percent(50),
        acknowledge_start: start_time(random, settings.acknowledge_timeout, now),
        nak_mark: random.percent(40),
        lost: random.percent(8),
    };
    for number in state.waiting_numbers() {
        let length = random.u16_between(1, limit);
        state.length[state.slot(number)] = random.pick([1, limit, length, length]);
    }
    state
}

/// Well-formed but strange (row 1 names no reason to refuse it).
fn odd(random: &mut Random, settings: Settings) -> State {
    let mut state = State::fresh(settings);
    match random.below(6) {
        0 => state.lost = true,
        1 => state.acking = true,
        2 => state.nak_mark = true,
        3 => state.length = [60_000; 2],
        4 => {
            state.waiting = 1;
            state.length = [7, 3];
        }
        _ => state.repeated = [settings.repeats; 2],
    }
    state
}

pub fn arbitrary(scribe: &mut Scribe) {
    let settings = settings(&mut scribe.random);
    let now = clock(&mut scribe.random);
    let state = match scribe.random.below(5) {
        0 => odd(&mut scribe.random, settings),
        _ => well_formed(&mut scribe.random, settings, now),
    };
    lend_enough(scribe, &settings);
    scribe.set(LinkCommand::State(state));
    for _ in 0..=scribe.random.below(6) {
        let later = scribe.random.pick([0, 0, 1, u32::MAX]);
        any_call(scribe, now.wrapping_add(later));
    }
}

/// One of the five calls that take a millisecond.
pub fn any_call(scribe: &mut Scribe, ms: u32) {
    let state = scribe.rig.link.state;
    match scribe.random.below(20) {
        0..=4 => {
            let packet = any_packet(&mut scribe.random, &state);
            scribe.call(LinkCommand::Submit {
                ms,
                packet: &packet,
            });
        }
        5..=11 => {
            let frame = frames::any_frame(&mut scribe.random, &state);
            scribe.call(LinkCommand::Take { ms, frame: &frame });
        }
        12..=16 => {
            scribe.call(LinkCommand::Look { ms });
        }
        17..=18 => {
            scribe.call(LinkCommand::Acknowledge { ms });
        }
        _ => {
            scribe.call(LinkCommand::Resynchronise { ms });
        }
    }
}

/// Of a size about the bounds, or any between.
fn any_packet(random: &mut Random, state: &State) -> Vec<u8> {
    let limit = state.settings.packet_limit().clamp(11, 1019);
    let size = match random.below(12) {
        0 => 0,
        1 => limit + 1,
        2..=3 => limit,
        4 => 1,
        5 => limit - 1,
        _ => random.u16_between(1, limit),
    };
    random.bytes(size.into())
}

/// Row 1, one cause at a time, mostly just outside.
fn broken(random: &mut Random, mut state: State) -> State {
    let limit = state.settings.packet_limit();
    let repeats = state.settings.repeats;
    match random.below(10) {
        0..=4 => break_settings(random, &mut state.settings),
        5 => state.next = random.pick([4, 4, 5, 255]),
        6 => state.expected = random.pick([4, 4, 7, 255]),
        7 => state.waiting = random.pick([state.settings.window + 1, 4, 255]),
        8 => {
            state.waiting = state.waiting.max(1);
            for number in state.waiting_numbers() {
                state.length[state.slot(number)] = limit;
            }
            let number = match random.below(2) {
                0 => state.oldest(),
                _ => state.next.wrapping_sub(1) & 3,
            };
            state.length[state.slot(number)] = random.pick([0, limit + 1, 65_535]);
        }
        _ => state.repeated[random.index(2)] = random.pick([repeats + 1, 255]),
    }
    state
}

fn break_settings(random: &mut Random, settings: &mut Settings) {
    let timeout = settings.transmit_timeout;
    match random.below(6) {
        0 => settings.data_reg_len = random.pick([15, 15, 1025, 1025, 0, 4, 5, 65_535]),
        1 => settings.window = random.pick([0, 3, 255]),
        2 => {
            settings.transmit_timeout = random.pick([0, 1, 1001, 65_535]);
            settings.acknowledge_timeout = random.pick([0, 1, 1000]);
        }
        3 => settings.acknowledge_timeout = random.pick([0, timeout, timeout + 1, 65_535]),
        4 => settings.order = random.pick([2, 2, 3, 128, 255]),
        _ => settings.repeats = random.pick([0, 5, 255]),
    }
}

/// Long and short buffers alike, since 1 comes before 2.
pub fn ill_formed(scribe: &mut Scribe) {
    let settings = settings(&mut scribe.random);
    let now = clock(&mut scribe.random);
    let sound = well_formed(&mut scribe.random, settings, now);
    let state = broken(&mut scribe.random, sound);
    match scribe.random.below(4) {
        0 => lend(scribe, settings.slots_need() - 1, settings.frame_need() - 1),
        _ => lend_enough(scribe, &settings),
    }
    scribe.set(LinkCommand::State(state));
    for _ in 0..=scribe.random.below(3) {
        any_call(scribe, now);
    }
}

/// Settings just inside their ranges, in turn with one just outside.
fn edge_settings(random: &mut Random) -> Settings {
    let transmit_timeout = random.pick([2, 3, 1000]);
    let mut settings = Settings {
        data_reg_len: random.pick([16, 16, 16, 16, 17, 17, 1024]),
        transmit_timeout,
        acknowledge_timeout: random.pick([1, transmit_timeout - 1]),
        window: random.pick([1, 2]),
        repeats: random.pick([1, 4]),
        order: random.pick(ORDERS),
    };
    if random.percent(50) {
        break_settings(random, &mut settings);
    }
    settings
}

pub fn starts(scribe: &mut Scribe) {
    let settings = edge_settings(&mut scribe.random);
    let need = settings.slots_need().min(2038);
    let slots = match scribe.random.below(6) {
        0 => need.saturating_sub(1),
        1 => 0,
        2 => need + 1,
        _ => need,
    };
    let frame = scribe.random.pick([0, 15, 16, 1024.min(need)]);
    lend(scribe, slots, frame);
    scribe.call(LinkCommand::Start(settings));
    if scribe.random.percent(60) {
        any_call(scribe, 7);
    }
}

/// Buffers about the need, with states and inputs that later checks would refuse.
pub fn short_buffers(scribe: &mut Scribe) {
    let settings = settings(&mut scribe.random);
    let now = clock(&mut scribe.random);
    let mut state = well_formed(&mut scribe.random, settings, now);
    state.lost = scribe.random.percent(25);
    let [slots, frame] = [settings.slots_need(), settings.frame_need()];
    let (slots, frame) = scribe.random.pick([
        (slots - 1, frame),
        (slots, frame - 1),
        (slots - 1, frame - 1),
        (slots, frame),
        (slots + 5, frame + 5),
        (0, frame),
        (slots, 0),
        (slots + 1, frame - 1),
        (slots - 1, frame + 1),
    ]);
    lend(scribe, slots, frame);
    scribe.set(LinkCommand::State(state));
    for _ in 0..=scribe.random.below(3) {
        any_call(scribe, now);
    }
}

/// Timers just before and just at their moment, also across the wrap; several looks,
/// since each sends one frame at most.
pub fn timers(scribe: &mut Scribe) {
    let settings = settings(&mut scribe.random);
    let now = clock(&mut scribe.random);
    let mut state = well_formed(&mut scribe.random, settings, now);
    state.lost = false;
    lend_enough(scribe, &settings);
    scribe.set(LinkCommand::State(state));
    let mut ms = now;
    for _ in 0..=scribe.random.below(6) {
        scribe.call(LinkCommand::Look { ms });
        let timeout = u32::from(settings.transmit_timeout);
        let step = scribe.random.pick([0, 0, 1, timeout - 1, timeout]);
        ms = ms.wrapping_add(step);
    }
}
