//! An end with the buffers lent to it, as one who keeps whole ends needs it.

use crate::link::{self, Outcome, Settings, State};

#[derive(Clone, Debug)]
pub struct End {
    pub state: State,
    slots: Vec<u8>,
    frame: Vec<u8>,
}

impl End {
    /// The slot buffer may hold anything at first.
    pub fn start(settings: Settings, slots: Vec<u8>) -> End {
        let state = link::start(settings, &slots).state;
        let frame = vec![0; settings.frame_need()];
        End {
            state,
            slots,
            frame,
        }
    }

    pub fn submit(&mut self, now: u32, packet: &[u8]) -> Outcome {
        let outcome = link::submit(self.state, &mut self.slots, &mut self.frame, now, packet);
        self.keep(outcome)
    }

    pub fn take(&mut self, now: u32, received: &[u8]) -> Outcome {
        let outcome = link::take(self.state, &self.slots, &mut self.frame, now, received);
        self.keep(outcome)
    }

    pub fn look(&mut self, now: u32) -> Outcome {
        let outcome = link::look(self.state, &self.slots, &mut self.frame, now);
        self.keep(outcome)
    }

    pub fn acknowledge(&mut self, now: u32) -> Outcome {
        let outcome = link::acknowledge(self.state, &self.slots, &mut self.frame, now);
        self.keep(outcome)
    }

    pub fn resynchronise(&mut self, now: u32) -> Outcome {
        let outcome = link::resynchronise(self.state, &self.slots, &mut self.frame, now);
        self.keep(outcome)
    }

    fn keep(&mut self, outcome: Outcome) -> Outcome {
        self.state = outcome.state;
        outcome
    }

    /// The frame that the last call sent.
    pub fn sent(&self, outcome: &Outcome) -> Option<&[u8]> {
        sent(&self.frame, outcome)
    }
}

/// The frame that a call left in the frame buffer.
pub fn sent<'a>(frame: &'a [u8], outcome: &Outcome) -> Option<&'a [u8]> {
    frame
        .get(..usize::from(outcome.sent))
        .filter(|sent| !sent.is_empty())
}
