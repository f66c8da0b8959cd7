//! Writes lines and follows them on a rig of its own, so that scenes
//! know the state that the next call will find.

use std::mem;

use super::noise::{self, Field};
use crate::link::Outcome;
use crate::random::Random;
use crate::script::{self, Command, LinkCommand, Rig, Said};

/// An ORDER of 0 as it stands in its line.
const LAST_0: &str = " 0";

pub struct Scribe {
    pub random: Random,
    pub rig: Rig,
    text: Vec<u8>,
    left: u64,
}

impl Scribe {
    pub fn new(seed: u64, calls: u64) -> Scribe {
        Scribe {
            random: Random::new(seed),
            rig: Rig::default(),
            text: Vec::new(),
            left: calls,
        }
    }

    pub fn calls_left(&self) -> bool {
        self.left > 0
    }

    pub fn take_text(&mut self) -> Vec<u8> {
        mem::take(&mut self.text)
    }

    pub fn write_line(&mut self, line: &[u8]) {
        self.text.extend_from_slice(line);
        self.text.push(b'\n');
    }

    /// A line that is no call: lend, state, room, joining.
    pub fn set<'a>(&mut self, command: impl Into<Command<'a>>) {
        let command = command.into();
        self.rig.execute(&command);
        self.write_command(&command);
    }

    /// One of the eight calls. Once all calls are written the rest of a scene falls away.
    pub fn call<'a>(&mut self, command: impl Into<Command<'a>>) -> Option<Said> {
        if self.left == 0 {
            return None;
        }
        let command = command.into();
        self.left -= 1;
        if self.random.below(60) == 0 {
            let line = noise::line(&mut self.random);
            self.write_line(&line);
        }
        self.write_command(&command);
        self.rig.execute(&command)
    }

    pub fn link_call(&mut self, command: LinkCommand<'_>) -> Option<Outcome> {
        match self.call(command) {
            Some(Said::Link(outcome)) => Some(outcome),
            _ => None,
        }
    }

    /// Lines may be in lower case throughout, numbers may have leading zeros, and an ORDER of 0
    /// may be left out.
    fn write_command(&mut self, command: &Command<'_>) {
        let mut line = Vec::new();
        script::write(command, &mut line);
        match (self.random.below(100), command.order()) {
            (0..=2, _) => line.make_ascii_lowercase(),
            (3, _) => noise::add_zeros(&mut self.random, &mut line, Field::First),
            (4..=5, Some(_)) => noise::add_zeros(&mut self.random, &mut line, Field::Last),
            (6..=59, Some(0)) => line.truncate(line.len().saturating_sub(LAST_0.len())),
            _ => {}
        }
        self.write_line(&line);
    }
}
