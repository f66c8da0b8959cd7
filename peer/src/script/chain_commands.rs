//! The commands of chaining: what each one's line says, does and prints.

use super::buffers::{refill, CALL_FILL, KEPT_FILL};
use super::fields::{numbers, then_hex, then_numbers, Fields};
use crate::chain::{self, Joined, Joining, Piece};

const ROOM_LIMIT: u32 = 8192;
const CUT_BUFFER_LIMIT: u32 = 1024;

#[derive(Clone, Copy, Debug, PartialEq, Eq)]
pub enum ChainCommand<'a> {
    Room(u16),
    Joining(Joining),
    Join {
        limit: u16,
        packet: &'a [u8],
    },
    Cut {
        limit: u16,
        index: u32,
        buffer: u16,
        message: &'a [u8],
    },
}

impl<'a> ChainCommand<'a> {
    /// Reads the fields behind a word. None for a word of no command here, with no field
    /// read, and for bad fields.
    pub(super) fn of(word: &[u8], fields: &mut Fields<'_, 'a>) -> Option<ChainCommand<'a>> {
        Some(match word {
            b"room" => ChainCommand::Room(fields.u16_to(ROOM_LIMIT)?),
            b"joining" => ChainCommand::Joining(Joining {
                open: fields.mark()?,
                joined: fields.u16()?,
            }),
            b"join" => ChainCommand::Join {
                limit: fields.u16()?,
                packet: fields.bytes()?,
            },
            b"cut" => ChainCommand::Cut {
                limit: fields.u16()?,
                index: fields.u32()?,
                buffer: fields.u16_to(CUT_BUFFER_LIMIT)?,
                message: fields.bytes()?,
            },
            _ => return None,
        })
    }
}

impl ChainCommand<'_> {
    pub(super) fn word(&self) -> &'static str {
        match self {
            ChainCommand::Room(_) => "room",
            ChainCommand::Joining(_) => "joining",
            ChainCommand::Join { .. } => "join",
            ChainCommand::Cut { .. } => "cut",
        }
    }

    /// The others only prepare a call.
    pub(super) fn is_call(&self) -> bool {
        !matches!(self, ChainCommand::Room(_) | ChainCommand::Joining(_))
    }

    /// The fields behind the word.
    pub(super) fn write_fields(&self, out: &mut Vec<u8>) {
        match *self {
            ChainCommand::Room(size) => then_numbers(&[size.into()], out),
            ChainCommand::Joining(joining) => then_numbers(&joining_numbers(&joining), out),
            ChainCommand::Join { limit, packet } => {
                then_numbers(&[limit.into()], out);
                then_hex(packet, out);
            }
            ChainCommand::Cut {
                limit,
                index,
                buffer,
                message,
            } => {
                then_numbers(&[limit.into(), index, buffer.into()], out);
                then_hex(message, out);
            }
        }
    }
}

#[derive(Clone, Copy, Debug, PartialEq, Eq)]
pub enum ChainOutcome {
    Join(Joined),
    Cut(Piece),
}

impl ChainOutcome {
    pub(super) fn answer(&self) -> u8 {
        match self {
            ChainOutcome::Join(joined) => joined.answer,
            ChainOutcome::Cut(piece) => piece.answer,
        }
    }
}

/// The one joining that a script works on, with the buffers lent to it and to cutting.
#[derive(Debug, Default)]
pub struct ChainRig {
    pub joining: Joining,
    room: Vec<u8>,
    packet: Vec<u8>,
}

impl ChainRig {
    /// The whole packet buffer of the last cut.
    pub fn packet(&self) -> &[u8] {
        &self.packet
    }

    /// None for commands that are no call.
    pub fn execute(&mut self, command: &ChainCommand<'_>) -> Option<ChainOutcome> {
        match *command {
            ChainCommand::Room(size) => {
                refill(&mut self.room, size, KEPT_FILL);
                None
            }
            ChainCommand::Joining(joining) => {
                self.joining = joining;
                None
            }
            ChainCommand::Join { limit, packet } => {
                let joined = chain::join(self.joining, &mut self.room, limit, packet);
                self.joining = joined.joining;
                Some(ChainOutcome::Join(joined))
            }
            ChainCommand::Cut {
                limit,
                index,
                buffer,
                message,
            } => {
                refill(&mut self.packet, buffer, CALL_FILL);
                let piece = chain::cut(limit, &mut self.packet, index, message);
                Some(ChainOutcome::Cut(piece))
            }
        }
    }

    /// The numbers told and the buffer, whole because the bytes that a call must leave alone
    /// are compared, too.
    pub(super) fn print(&self, outcome: &ChainOutcome, out: &mut Vec<u8>) {
        match outcome {
            ChainOutcome::Join(joined) => {
                join_numbers(joined, out);
                then_hex(&self.room, out);
            }
            ChainOutcome::Cut(piece) => {
                cut_numbers(piece, out);
                then_hex(&self.packet, out);
            }
        }
    }
}

/// OPEN JOINED
fn joining_numbers(joining: &Joining) -> [u32; 2] {
    [joining.open.into(), joining.joined.into()]
}

/// ANSWER LENGTH FAULT OPEN JOINED
pub(crate) fn join_numbers(joined: &Joined, out: &mut Vec<u8>) {
    let told = [
        joined.answer.into(),
        joined.length.into(),
        joined.fault.into(),
    ];
    numbers(&told, out);
    then_numbers(&joining_numbers(&joined.joining), out);
}

/// ANSWER LENGTH COUNT
pub(crate) fn cut_numbers(piece: &Piece, out: &mut Vec<u8>) {
    let told = [piece.answer.into(), piece.length.into(), piece.count.into()];
    numbers(&told, out);
}
