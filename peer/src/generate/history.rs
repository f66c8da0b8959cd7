//! Scenes of one end as its desk sees it: the far end lives in the generator, and only
//! the near end's calls are written, with the frames that reach it.

use std::collections::VecDeque;

use super::scribe::Scribe;
use super::{frames, states};
use crate::bus::{self, End};
use crate::link::{Outcome, Settings};
use crate::random::Random;
use crate::script::LinkCommand;

#[derive(Clone, Copy)]
enum Move {
    NearSubmit,
    FarSubmit,
    CarryToNear,
    CarryToFar,
    NearLook,
    FarLook,
    NearAcknowledge,
    FarAcknowledge,
    Lose,
    Damage,
    Double,
    Swap,
    Wait,
    Stray,
    NearResynchronise,
    FarResynchronise,
}

/// Each move with how often it comes in each kind of history: an even one, one with much
/// to send, one with a noisy bus, one whose far end falls silent.
const MOVES: [(Move, [u32; 4]); 16] = [
    (Move::NearSubmit, [16, 30, 18, 16]),
    (Move::FarSubmit, [12, 24, 14, 3]),
    (Move::CarryToNear, [24, 24, 26, 6]),
    (Move::CarryToFar, [22, 16, 22, 6]),
    (Move::NearLook, [10, 8, 10, 22]),
    (Move::FarLook, [6, 4, 6, 2]),
    (Move::NearAcknowledge, [4, 3, 3, 2]),
    (Move::FarAcknowledge, [3, 2, 3, 1]),
    (Move::Lose, [3, 2, 4, 8]),
    (Move::Damage, [3, 3, 16, 4]),
    (Move::Double, [2, 1, 3, 1]),
    (Move::Swap, [1, 1, 2, 1]),
    (Move::Wait, [12, 6, 8, 18]),
    (Move::Stray, [2, 2, 4, 2]),
    (Move::NearResynchronise, [1, 0, 1, 1]),
    (Move::FarResynchronise, [1, 1, 1, 1]),
];

struct Line {
    settings: Settings,
    far: End,
    to_near: VecDeque<Vec<u8>>,
    to_far: VecDeque<Vec<u8>>,
    clock: u32,
}

impl Line {
    fn open(scribe: &mut Scribe) -> Line {
        let settings = states::settings(&mut scribe.random);
        states::lend_enough(scribe, &settings);
        scribe.call(LinkCommand::Start(settings));
        Line {
            settings,
            far: End::start(settings, vec![0; settings.slots_need()]),
            to_near: VecDeque::new(),
            to_far: VecDeque::new(),
            clock: states::clock(&mut scribe.random),
        }
    }

    fn near_call(&mut self, scribe: &mut Scribe, command: LinkCommand<'_>) {
        let Some(outcome) = scribe.link_call(command) else {
            return;
        };
        if let Some(frame) = bus::sent(scribe.rig.link.frame(), &outcome) {
            self.to_far.push_back(frame.to_vec());
        }
    }

    fn far_called(&mut self, outcome: Outcome) {
        if let Some(frame) = self.far.sent(&outcome) {
            self.to_near.push_back(frame.to_vec());
        }
    }

    fn step(&mut self, scribe: &mut Scribe, chosen: Move) {
        let ms = self.clock;
        match chosen {
            Move::NearSubmit => self.near_submit(scribe),
            Move::CarryToNear => self.carry_to_near(scribe),
            Move::NearLook => self.near_look(scribe),
            Move::NearAcknowledge => self.near_call(scribe, LinkCommand::Acknowledge { ms }),
            Move::NearResynchronise => self.near_call(scribe, LinkCommand::Resynchronise { ms }),
            Move::Stray => {
                let frame = frames::any_frame(&mut scribe.random, &scribe.rig.link.state);
                self.near_call(scribe, LinkCommand::Take { ms, frame: &frame });
            }
            Move::Wait => self.wait(&mut scribe.random),
            _ => self.far_step(&mut scribe.random, chosen),
        }
    }

    fn far_step(&mut self, random: &mut Random, chosen: Move) {
        let ms = self.clock;
        match chosen {
            Move::FarSubmit => {
                let outcome = self.far.submit(ms, &packet(random, &self.settings));
                self.far_called(outcome);
            }
            Move::CarryToFar => {
                if let Some(frame) = self.to_far.pop_front() {
                    let outcome = self.far.take(ms, &frame);
                    self.far_called(outcome);
                }
            }
            Move::FarLook => {
                let outcome = self.far.look(ms);
                self.far_called(outcome);
            }
            Move::FarAcknowledge => {
                let outcome = self.far.acknowledge(ms);
                self.far_called(outcome);
            }
            Move::FarResynchronise => {
                let outcome = self.far.resynchronise(ms);
                self.far_called(outcome);
            }
            _ => self.harm(random, chosen),
        }
    }

    /// What a bad bus does to a queue.
    fn harm(&mut self, random: &mut Random, chosen: Move) {
        let queue = match random.below(2) {
            0 => &mut self.to_near,
            _ => &mut self.to_far,
        };
        let place = random.index(queue.len());
        let Some(frame) = queue.get(place) else {
            return;
        };
        match chosen {
            Move::Lose => {
                queue.remove(place);
            }
            Move::Damage => {
                let damaged = frames::damaged(random, frame);
                queue[place] = damaged;
            }
            Move::Double => queue.push_back(frame.clone()),
            Move::Swap => queue.swap(0, place),
            _ => {}
        }
    }

    /// Mostly where the window has a place, else few submits would be taken.
    fn near_submit(&mut self, scribe: &mut Scribe) {
        let full = scribe.rig.link.state.waiting >= self.settings.window;
        if full && scribe.random.percent(80) {
            return;
        }
        let packet = packet(&mut scribe.random, &self.settings);
        let ms = self.clock;
        self.near_call(
            scribe,
            LinkCommand::Submit {
                ms,
                packet: &packet,
            },
        );
    }

    /// Often after a wait, else most looks would find nothing due.
    fn near_look(&mut self, scribe: &mut Scribe) {
        if scribe.random.percent(60) {
            self.wait(&mut scribe.random);
        }
        let ms = self.clock;
        self.near_call(scribe, LinkCommand::Look { ms });
    }

    fn carry_to_near(&mut self, scribe: &mut Scribe) {
        let ms = self.clock;
        match self.to_near.pop_front() {
            Some(frame) => self.near_call(scribe, LinkCommand::Take { ms, frame: &frame }),
            None => self.step(scribe, Move::FarSubmit),
        }
    }

    /// Mostly by what makes a timer due or just not; now and then back.
    fn wait(&mut self, random: &mut Random) {
        let transmit = u32::from(self.settings.transmit_timeout);
        let acknowledge = u32::from(self.settings.acknowledge_timeout);
        let step = match random.below(20) {
            0 => 0u32.wrapping_sub(random.between(1, 2 * transmit)),
            1 => random.u32(),
            2..=4 => 1,
            5..=7 => acknowledge,
            8 => acknowledge - 1,
            9..=10 => transmit - 1,
            11..=15 => transmit,
            _ => random.below(transmit),
        };
        self.clock = self.clock.wrapping_add(step);
    }
}

fn packet(random: &mut Random, settings: &Settings) -> Vec<u8> {
    let limit = settings.packet_limit();
    let size = match random.below(40) {
        0 => 0,
        1 => limit + 1,
        2..=5 => limit,
        6..=9 => 1,
        _ => random.u16_between(1, limit.min(20)),
    };
    random.bytes(size.into())
}

pub fn two_ends(scribe: &mut Scribe) {
    let mut line = Line::open(scribe);
    let kind = scribe.random.index(4);
    for _ in 0..scribe.random.between(60, 180) {
        if !scribe.calls_left() {
            return;
        }
        let chosen = if scribe.rig.link.state.lost && scribe.random.percent(25) {
            Move::NearResynchronise
        } else {
            let weights = MOVES.iter().map(|(_, weights)| weights[kind]);
            MOVES[scribe.random.weighted(weights)].0
        };
        line.step(scribe, chosen);
    }
}

/// No far end at all: frames made to concern what waits, so that repeats by NAK,
/// exhausted repeats and repeats inside data frames are common.
pub fn hostile(scribe: &mut Scribe) {
    let mut line = Line::open(scribe);
    for _ in 0..scribe.random.between(20, 60) {
        if !scribe.calls_left() {
            return;
        }
        let chosen = match scribe.random.below(20) {
            0..=5 => Move::NearSubmit,
            6..=14 => Move::Stray,
            15..=16 => Move::NearLook,
            17 => Move::NearAcknowledge,
            _ => Move::Wait,
        };
        let chosen = match scribe.rig.link.state.lost {
            true if scribe.random.percent(40) => Move::NearResynchronise,
            _ => chosen,
        };
        line.step(scribe, chosen);
    }
}
