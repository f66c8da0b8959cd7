//! What a script works on: both layers, each with its state and the buffers lent to it.

use super::chain_commands::{ChainOutcome, ChainRig};
use super::command::Command;
use super::link_commands::LinkRig;
use crate::link::Outcome;

/// The default is the beginning of a script: a state of zeros and empty buffers.
#[derive(Debug, Default)]
pub struct Rig {
    pub link: LinkRig,
    pub chain: ChainRig,
}

#[derive(Clone, Copy, Debug, PartialEq, Eq)]
pub enum Said {
    Link(Outcome),
    Chain(ChainOutcome),
}

impl Said {
    pub fn answer(&self) -> u8 {
        match self {
            Said::Link(outcome) => outcome.answer,
            Said::Chain(outcome) => outcome.answer(),
        }
    }
}

impl Rig {
    /// None for commands that are no call.
    pub fn execute(&mut self, command: &Command<'_>) -> Option<Said> {
        match command {
            Command::Link(command) => self.link.execute(command).map(Said::Link),
            Command::Chain(command) => self.chain.execute(command).map(Said::Chain),
        }
    }

    /// Adds the line, with its LF, of the call just made.
    pub fn print(&self, said: &Said, out: &mut Vec<u8>) {
        match said {
            Said::Link(outcome) => self.link.print(outcome, out),
            Said::Chain(outcome) => self.chain.print(outcome, out),
        }
        out.push(b'\n');
    }
}
