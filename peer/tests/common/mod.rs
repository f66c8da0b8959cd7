//! An end with its buffers for the tests; the frame buffer is filled anew for each call.

#![allow(dead_code)]

use std::mem;

use peer::checksum::checksum;
use peer::link::{self, Outcome, Settings, State};

pub const SLOT_FILL: u8 = 0xEE;
pub const FRAME_FILL: u8 = 0xDD;

/// Of FCS: its low byte first, its high byte first.
pub const ORDERS: [u8; 2] = [0, 1];

/// m is 11, and the low byte of FCS goes first.
pub fn settings() -> Settings {
    Settings {
        data_reg_len: 16,
        transmit_timeout: 10,
        acknowledge_timeout: 4,
        window: 2,
        repeats: 2,
        order: 0,
    }
}

pub fn ordered(order: u8) -> Settings {
    Settings {
        order,
        ..settings()
    }
}

pub fn one_slot() -> Settings {
    Settings {
        window: 1,
        ..settings()
    }
}

/// Any bytes with their right checksum behind, its low byte first.
pub fn sealed(bytes: &[u8]) -> Vec<u8> {
    let mut frame = bytes.to_vec();
    frame.extend_from_slice(&checksum(bytes).to_le_bytes());
    frame
}

/// The two bytes of FCS turned round.
pub fn turned(frame: &[u8]) -> Vec<u8> {
    let mut turned = frame.to_vec();
    if let [.., first, second] = turned.as_mut_slice() {
        mem::swap(first, second);
    }
    turned
}

pub fn control(fctr: u8) -> Vec<u8> {
    sealed(&[fctr, 0, 0])
}

pub fn data(fctr: u8, packet: &[u8]) -> Vec<u8> {
    let [high, low] = (packet.len() as u16).to_be_bytes();
    let mut bytes = vec![fctr, high, low];
    bytes.extend_from_slice(packet);
    sealed(&bytes)
}

#[derive(Clone, Debug)]
pub struct Bench {
    pub state: State,
    pub slots: Vec<u8>,
    pub frame: Vec<u8>,
}

impl Bench {
    /// Buffers of just what the state's settings need.
    pub fn with(state: State) -> Bench {
        Bench {
            state,
            slots: vec![SLOT_FILL; state.settings.slots_need()],
            frame: vec![FRAME_FILL; state.settings.frame_need()],
        }
    }

    pub fn fresh(settings: Settings) -> Bench {
        Bench::with(State::fresh(settings))
    }

    /// A fresh end that has sent so many packets of the bytes 10, 11, ...
    pub fn waiting(settings: Settings, packets: u8) -> Bench {
        let mut bench = Bench::fresh(settings);
        for packet in 0..packets {
            assert_eq!(bench.submit(0, &[0x10 + packet]).answer, 0);
        }
        bench
    }

    fn settle(&mut self, outcome: Outcome) -> Outcome {
        self.state = outcome.state;
        outcome
    }

    pub fn submit(&mut self, now: u32, packet: &[u8]) -> Outcome {
        self.frame.fill(FRAME_FILL);
        let outcome = link::submit(self.state, &mut self.slots, &mut self.frame, now, packet);
        self.settle(outcome)
    }

    pub fn take(&mut self, now: u32, received: &[u8]) -> Outcome {
        self.frame.fill(FRAME_FILL);
        let outcome = link::take(self.state, &self.slots, &mut self.frame, now, received);
        self.settle(outcome)
    }

    pub fn look(&mut self, now: u32) -> Outcome {
        self.frame.fill(FRAME_FILL);
        let outcome = link::look(self.state, &self.slots, &mut self.frame, now);
        self.settle(outcome)
    }

    pub fn acknowledge(&mut self, now: u32) -> Outcome {
        self.frame.fill(FRAME_FILL);
        let outcome = link::acknowledge(self.state, &self.slots, &mut self.frame, now);
        self.settle(outcome)
    }

    pub fn resynchronise(&mut self, now: u32) -> Outcome {
        self.frame.fill(FRAME_FILL);
        let outcome = link::resynchronise(self.state, &self.slots, &mut self.frame, now);
        self.settle(outcome)
    }

    /// The frame sent; the bytes behind it must have stayed.
    pub fn sent(&self, outcome: &Outcome) -> &[u8] {
        let (frame, rest) = self.frame.split_at(outcome.sent.into());
        assert!(rest.iter().all(|&byte| byte == FRAME_FILL));
        frame
    }

    /// What each call but start answers here, on a copy.
    pub fn every_call(&self) -> [(&'static str, Bench, Outcome); 5] {
        let on_copy = |name, call: fn(&mut Bench) -> Outcome| {
            let mut copy = self.clone();
            let outcome = call(&mut copy);
            (name, copy, outcome)
        };
        [
            on_copy("submit", |bench| bench.submit(3, &[1, 2])),
            on_copy("take", |bench| match bench.state.settings.order {
                1 => bench.take(3, &turned(&control(0x83))),
                _ => bench.take(3, &control(0x83)),
            }),
            on_copy("look", |bench| bench.look(3)),
            on_copy("acknowledge", |bench| bench.acknowledge(3)),
            on_copy("resynchronise", |bench| bench.resynchronise(3)),
        ]
    }

    /// Refused by this number, with nothing told, changed or written.
    pub fn assert_untouched(&self, after: &Bench, outcome: &Outcome, answer: u8, what: &str) {
        let told = (
            outcome.answer,
            outcome.sent,
            outcome.delivered,
            outcome.dropped,
        );
        assert_eq!(told, (answer, 0, 0, 0), "{what}");
        assert_eq!(outcome.state, self.state, "{what}");
        assert_eq!(after.slots, self.slots, "{what}");
        assert!(after.frame.iter().all(|&byte| byte == FRAME_FILL), "{what}");
    }
}
