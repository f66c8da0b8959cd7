//! Demand 3 by search: two ends, a bad bus, then quiet timer rounds.

use std::collections::VecDeque;
use std::fmt;

use crate::answer;
use crate::bus::End;
use crate::frame::{self, Heard};
use crate::link::{elapsed, Outcome, Settings, State};
use crate::random::Random;

/// R14.4.
const ROUNDS_ALLOWED: u32 = 24;

/// Far above what carrying can need: each carried frame is answered by at most one, and
/// only damaged, NAK and data frames are answered at all.
const CARRY_LIMIT: u32 = 100_000;

/// Far above what looking can need: two packets and an ACK.
const LOOK_LIMIT: u32 = 1_000;

/// Rounds run after the windows are empty, to see that it stays so.
const ROUNDS_AFTER: u32 = 2;

#[derive(Debug, Default, PartialEq, Eq)]
pub struct Report {
    pub histories: u64,
    pub lost: u64,
    pub through: u64,
    /// of those that came through, how many had the high byte of FCS first
    pub high_first: u64,
    /// taken, and so delivered, in the histories that came through
    pub packets: u64,
    pub largest: u32,
}

#[derive(Debug, PartialEq, Eq)]
pub enum Fault {
    /// a delivered packet is not the next of those taken
    Prefix,
    TooManyRounds,
    CarryingNeverEnds,
    LookingNeverEnds,
    /// the windows are empty, but something taken is not delivered
    NotDelivered,
    /// the windows did not stay empty
    WokeAgain,
    Answer(u8),
}

#[derive(Debug, PartialEq, Eq)]
pub struct Broken {
    pub history: u64,
    pub fault: Fault,
}

impl fmt::Display for Broken {
    fn fmt(&self, out: &mut fmt::Formatter<'_>) -> fmt::Result {
        let history = self.history;
        match self.fault {
            Fault::Prefix => write!(out, "history {history}: delivered is no prefix of taken"),
            Fault::TooManyRounds => write!(out, "history {history}: over 24 rounds"),
            Fault::CarryingNeverEnds => write!(out, "history {history}: carrying never ends"),
            Fault::LookingNeverEnds => write!(out, "history {history}: looking never ends"),
            Fault::NotDelivered => write!(out, "history {history}: windows empty too early"),
            Fault::WokeAgain => write!(out, "history {history}: windows filled again"),
            Fault::Answer(number) => write!(out, "history {history}: answer {number}"),
        }
    }
}

#[derive(Debug, PartialEq, Eq)]
pub enum Ending {
    Lost,
    Through {
        rounds: u32,
        packets: u64,
        high_first: bool,
    },
}

pub fn search(seed: u64, histories: u64) -> Result<Report, Broken> {
    let mut report = Report::default();
    for history in 0..histories {
        let mut random = Random::of_history(seed, history);
        let ending = one_history(&mut random).map_err(|fault| Broken { history, fault })?;
        report.histories += 1;
        match ending {
            Ending::Lost => report.lost += 1,
            Ending::Through {
                rounds,
                packets,
                high_first,
            } => {
                report.through += 1;
                report.high_first += u64::from(high_first);
                report.packets += packets;
                report.largest = report.largest.max(rounds);
            }
        }
    }
    Ok(report)
}

fn one_history(random: &mut Random) -> Result<Ending, Fault> {
    let mut pair = Pair::fresh(random);
    let most = random.pick([40, 120, 400]);
    let moves = random.below(most);
    let bus = Bus::any(random);
    for _ in 0..moves {
        pair.any_move(random, &bus)?;
        if pair.lost() {
            return Ok(Ending::Lost);
        }
    }
    let clock = match random.below(4) {
        0 => random.u32(),
        1 => u32::MAX - random.below(2000),
        _ => pair.any_clock(random, &bus),
    };
    quiet(&mut pair, random, clock)
}

/// What one history is like: how often each kind of move comes, so that some have a
/// silent bus and some a lively one, and how the clocks of its calls go.
struct Bus {
    weights: [u32; 7],
    clocks: Clocks,
}

/// No two calls need to agree about the time, nor does it need to go forward.
#[derive(Clone, Copy)]
enum Clocks {
    /// forward, with a jump now and then
    Steady,
    /// to and fro within a timeout, so that timers run out one by one
    Scattered,
    Wild,
}

impl Bus {
    fn any(random: &mut Random) -> Bus {
        let [submit, take, look] = [random.below(40), random.below(40), random.below(10)];
        let [harm, acknowledge] = [random.pick([0, 5, 20]), random.below(15)];
        let [lose, damage] = [random.below(1 + harm), random.below(1 + harm)];
        Bus {
            weights: [1 + submit, 1 + take, look, acknowledge, lose, damage, 1],
            clocks: random.pick([Clocks::Steady, Clocks::Scattered, Clocks::Wild]),
        }
    }
}

struct Pair {
    /// of both ends: demand 3 is about equal settings
    settings: Settings,
    ends: [End; 2],
    /// frames on their way to each end
    queues: [VecDeque<Vec<u8>>; 2],
    /// packets that submit took at each end
    taken: [Vec<Vec<u8>>; 2],
    /// how many of the other end's packets each end has delivered
    delivered: [usize; 2],
    /// a clock that the calls mostly stay near to
    clock: u32,
}

fn any_settings(random: &mut Random) -> Settings {
    let transmit_timeout = match random.below(2) {
        0 => random.u16_between(2, 1000),
        _ => random.u16_between(2, 12),
    };
    Settings {
        data_reg_len: random.u16_between(16, 20),
        transmit_timeout,
        acknowledge_timeout: random.u16_between(1, transmit_timeout - 1),
        window: random.u8_between(1, 2),
        repeats: random.u8_between(1, 4),
        order: random.pick(frame::ORDERS),
    }
}

impl Pair {
    fn fresh(random: &mut Random) -> Pair {
        let settings = any_settings(random);
        let end = |random: &mut Random| {
            let size = settings.slots_need() + random.index(3);
            End::start(settings, random.bytes(size))
        };
        Pair {
            settings,
            ends: [end(random), end(random)],
            queues: Default::default(),
            taken: Default::default(),
            delivered: [0; 2],
            clock: match random.below(2) {
                0 => u32::MAX - random.below(40),
                _ => random.u32(),
            },
        }
    }

    fn lost(&self) -> bool {
        self.ends.iter().any(|end| end.state.lost)
    }

    fn windows_empty(&self) -> bool {
        self.ends.iter().all(|end| end.state.waiting == 0)
    }

    fn any_clock(&mut self, random: &mut Random, bus: &Bus) -> u32 {
        let timeout = u32::from(self.settings.transmit_timeout);
        match (bus.clocks, random.below(20)) {
            (Clocks::Wild, _) | (Clocks::Steady, 0) => random.u32(),
            (Clocks::Scattered, _) => self.clock.wrapping_sub(random.below(timeout)),
            (Clocks::Steady, 1) => self.clock.wrapping_sub(random.below(3 * timeout)),
            (Clocks::Steady, 2..=5) => {
                self.clock = self.clock.wrapping_add(random.below(timeout + 2));
                self.clock
            }
            (Clocks::Steady, _) => self.clock,
        }
    }

    fn any_move(&mut self, random: &mut Random, bus: &Bus) -> Result<(), Fault> {
        let side = random.index(2);
        let now = self.any_clock(random, bus);
        match random.weighted(bus.weights.iter().copied()) {
            0 => self.submit(random, side, now),
            1 => self.take(side, now),
            2 => {
                let outcome = self.ends[side].look(now);
                self.settle(side, &outcome)
            }
            3 => {
                let outcome = self.ends[side].acknowledge(now);
                self.settle(side, &outcome)
            }
            4 => {
                self.lose(random, side);
                Ok(())
            }
            5 => {
                self.damage(random, side);
                Ok(())
            }
            _ => self.lend_too_little(random, side, now),
        }
    }

    /// Sends what the call sent and refuses answers that no call of a history gives.
    fn settle(&mut self, side: usize, outcome: &Outcome) -> Result<(), Fault> {
        if matches!(outcome.answer, answer::OUT_OF_RANGE | answer::SHORT_BUFFER) {
            return Err(Fault::Answer(outcome.answer));
        }
        if let Some(frame) = self.ends[side].sent(outcome) {
            self.queues[1 - side].push_back(frame.to_vec());
        }
        Ok(())
    }

    fn submit(&mut self, random: &mut Random, side: usize, now: u32) -> Result<(), Fault> {
        let limit = self.settings.packet_limit();
        let size = random.u16_between(1, limit);
        let packet = random.bytes(size.into());
        let outcome = self.ends[side].submit(now, &packet);
        self.settle(side, &outcome)?;
        if outcome.answer == answer::DONE {
            self.taken[side].push(packet);
        }
        Ok(())
    }

    fn take(&mut self, side: usize, now: u32) -> Result<(), Fault> {
        let Some(frame) = self.queues[side].pop_front() else {
            return Ok(());
        };
        let outcome = self.ends[side].take(now, &frame);
        self.settle(side, &outcome)?;
        if outcome.delivered == 0 {
            return Ok(());
        }
        let packet = frame.get(3..3 + usize::from(outcome.delivered));
        let next = self.taken[1 - side].get(self.delivered[side]);
        if packet.is_none() || packet != next.map(Vec::as_slice) {
            return Err(Fault::Prefix);
        }
        self.delivered[side] += 1;
        Ok(())
    }

    fn lose(&mut self, random: &mut Random, side: usize) {
        let place = random.index(self.queues[side].len());
        self.queues[side].remove(place);
    }

    /// Damages any queued frame to bytes that step 1 refuses, the other order of FCS among
    /// them. What a change of bytes happens to leave right is lengthened until its size is refused.
    fn damage(&mut self, random: &mut Random, side: usize) {
        let size = self.settings.data_reg_len;
        let place = random.index(self.queues[side].len());
        let Some(frame) = self.queues[side].get_mut(place) else {
            return;
        };
        match random.below(5) {
            0 => {
                let other = random.index(usize::from(size) + 4);
                *frame = random.bytes(other);
            }
            1 => frame.truncate(random.index(frame.len())),
            2 => frame::turn(frame),
            _ => flip(random, frame),
        }
        if !matches!(self.settings.hear(frame), Heard::Size | Heard::Sum) {
            frame.resize(usize::from(size) + 1, 0);
        }
    }

    /// A call answered 2 changes nothing, and the frame it was handed stays queued.
    fn lend_too_little(&mut self, random: &mut Random, side: usize, now: u32) -> Result<(), Fault> {
        let state = self.ends[side].state;
        let mut slots = vec![0; state.settings.slots_need()];
        let mut short = vec![0; random.index(state.settings.frame_need())];
        let frame = self.queues[side].front().map_or(&[][..], Vec::as_slice);
        let outcome = match random.below(3) {
            0 => crate::link::take(state, &slots, &mut short, now, frame),
            1 => crate::link::look(state, &slots, &mut short, now),
            _ => crate::link::submit(state, &mut slots, &mut short, now, &[0]),
        };
        if outcome.answer != answer::SHORT_BUFFER || outcome.state != state {
            return Err(Fault::Answer(outcome.answer));
        }
        Ok(())
    }
}

fn flip(random: &mut Random, frame: &mut [u8]) {
    for _ in 0..=random.below(3) {
        let place = random.index(frame.len());
        if let Some(byte) = frame.get_mut(place) {
            *byte ^= 1 << random.below(8);
        }
    }
}

/// Timer rounds until both windows are empty or a link is lost.
fn quiet(pair: &mut Pair, random: &mut Random, mut clock: u32) -> Result<Ending, Fault> {
    let mut rounds = 0;
    while !pair.windows_empty() {
        if rounds == ROUNDS_ALLOWED {
            return Err(Fault::TooManyRounds);
        }
        clock = round(pair, random, clock)?;
        if pair.lost() {
            return Ok(Ending::Lost);
        }
        rounds += 1;
    }
    check_delivered(pair)?;
    for _ in 0..ROUNDS_AFTER {
        clock = round(pair, random, clock)?;
        if !pair.windows_empty() || pair.lost() {
            return Err(Fault::WokeAgain);
        }
        check_delivered(pair)?;
    }
    let packets = pair.taken.iter().map(|taken| taken.len() as u64).sum();
    Ok(Ending::Through {
        rounds,
        packets,
        high_first: pair.settings.high_first(),
    })
}

fn check_delivered(pair: &Pair) -> Result<(), Fault> {
    let all = (0..2).all(|side| pair.delivered[side] == pair.taken[1 - side].len());
    if all {
        Ok(())
    } else {
        Err(Fault::NotDelivered)
    }
}

/// R6.5. The clock it leaves is told.
fn round(pair: &mut Pair, random: &mut Random, clock: u32) -> Result<u32, Fault> {
    carry(pair, random, clock)?;
    let clock = first_due(pair, clock);
    let first = random.index(2);
    for side in [first, 1 - first] {
        look_until_silent(pair, side, clock)?;
    }
    Ok(clock)
}

/// R6.5, last.
fn look_until_silent(pair: &mut Pair, side: usize, clock: u32) -> Result<(), Fault> {
    for _ in 0..LOOK_LIMIT {
        let outcome = pair.ends[side].look(clock);
        pair.settle(side, &outcome)?;
        if outcome.sent == 0 {
            return Ok(());
        }
    }
    Err(Fault::LookingNeverEnds)
}

/// R6.5, first.
fn carry(pair: &mut Pair, random: &mut Random, clock: u32) -> Result<(), Fault> {
    for _ in 0..CARRY_LIMIT {
        let side = random.index(2);
        if !pair.queues[side].is_empty() {
            pair.take(side, clock)?;
        } else if pair.queues[1 - side].is_empty() {
            return Ok(());
        } else {
            pair.take(1 - side, clock)?;
        }
    }
    Err(Fault::CarryingNeverEnds)
}

/// R6.5, between.
fn first_due(pair: &Pair, clock: u32) -> u32 {
    let left = pair
        .ends
        .iter()
        .filter_map(|end| time_left(&end.state, clock));
    clock.wrapping_add(left.min().unwrap_or(0))
}

/// Until an end's first timer is due, 0 if one is, none if none runs.
fn time_left(state: &State, clock: u32) -> Option<u32> {
    let settings = &state.settings;
    let until = |start, timeout: u16| u32::from(timeout).saturating_sub(elapsed(start, clock));
    let packets = state
        .waiting_numbers()
        .map(|number| until(state.started[state.slot(number)], settings.transmit_timeout));
    let acknowledge = state
        .acking
        .then(|| until(state.acknowledge_start, settings.acknowledge_timeout));
    packets.chain(acknowledge).min()
}
