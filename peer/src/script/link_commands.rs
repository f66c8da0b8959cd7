//! The commands of the link: what each one's line says, does and prints.

use super::buffers::{refill, CALL_FILL, KEPT_FILL};
use super::fields::{numbers, then_hex, then_numbers, Fields};
use crate::link::{self, Outcome, Settings, State};

const LEND_LIMIT: u32 = 4096;

#[derive(Clone, Copy, Debug, PartialEq, Eq)]
pub enum LinkCommand<'a> {
    Lend { slots: u16, frame: u16 },
    State(State),
    Start(Settings),
    Submit { ms: u32, packet: &'a [u8] },
    Take { ms: u32, frame: &'a [u8] },
    Look { ms: u32 },
    Acknowledge { ms: u32 },
    Resynchronise { ms: u32 },
}

impl<'a> LinkCommand<'a> {
    /// Reads the fields behind a word. None for a word of no command here, with no field
    /// read, and for bad fields.
    pub(super) fn of(word: &[u8], fields: &mut Fields<'_, 'a>) -> Option<LinkCommand<'a>> {
        Some(match word {
            b"lend" => LinkCommand::Lend {
                slots: fields.u16_to(LEND_LIMIT)?,
                frame: fields.u16_to(LEND_LIMIT)?,
            },
            b"state" => LinkCommand::State(read_state(fields)?),
            b"start" => LinkCommand::Start(read_start(fields)?),
            b"submit" => LinkCommand::Submit {
                ms: fields.u32()?,
                packet: fields.bytes()?,
            },
            b"take" => LinkCommand::Take {
                ms: fields.u32()?,
                frame: fields.bytes()?,
            },
            b"look" => LinkCommand::Look { ms: fields.u32()? },
            b"acknowledge" => LinkCommand::Acknowledge { ms: fields.u32()? },
            b"resynchronise" => LinkCommand::Resynchronise { ms: fields.u32()? },
            _ => return None,
        })
    }
}

impl LinkCommand<'_> {
    pub(super) fn word(&self) -> &'static str {
        match self {
            LinkCommand::Lend { .. } => "lend",
            LinkCommand::State(_) => "state",
            LinkCommand::Start(_) => "start",
            LinkCommand::Submit { .. } => "submit",
            LinkCommand::Take { .. } => "take",
            LinkCommand::Look { .. } => "look",
            LinkCommand::Acknowledge { .. } => "acknowledge",
            LinkCommand::Resynchronise { .. } => "resynchronise",
        }
    }

    /// The others only prepare a call.
    pub(super) fn is_call(&self) -> bool {
        !matches!(self, LinkCommand::Lend { .. } | LinkCommand::State(_))
    }

    /// ORDER, which is the last field of the lines that have it.
    pub(super) fn order(&self) -> Option<u8> {
        match self {
            LinkCommand::State(state) => Some(state.settings.order),
            LinkCommand::Start(settings) => Some(settings.order),
            _ => None,
        }
    }

    /// The fields behind the word, ORDER too where it could be left out.
    pub(super) fn write_fields(&self, out: &mut Vec<u8>) {
        match *self {
            LinkCommand::Lend { slots, frame } => {
                then_numbers(&[slots.into(), frame.into()], out);
            }
            LinkCommand::State(state) => {
                then_numbers(&settings_numbers(&state.settings), out);
                then_numbers(&state_numbers(&state), out);
                then_order(&state.settings, out);
            }
            LinkCommand::Start(settings) => {
                then_numbers(&settings_numbers(&settings), out);
                then_order(&settings, out);
            }
            LinkCommand::Submit { ms, packet } => {
                then_numbers(&[ms], out);
                then_hex(packet, out);
            }
            LinkCommand::Take { ms, frame } => {
                then_numbers(&[ms], out);
                then_hex(frame, out);
            }
            LinkCommand::Look { ms }
            | LinkCommand::Acknowledge { ms }
            | LinkCommand::Resynchronise { ms } => then_numbers(&[ms], out),
        }
    }
}

/// The one end that a script works on, with the buffers lent to it.
#[derive(Debug, Default)]
pub struct LinkRig {
    pub state: State,
    slots: Vec<u8>,
    frame: Vec<u8>,
}

impl LinkRig {
    /// The whole frame buffer as the last call left it.
    pub fn frame(&self) -> &[u8] {
        &self.frame
    }

    /// None for commands that are no call.
    pub fn execute(&mut self, command: &LinkCommand<'_>) -> Option<Outcome> {
        if command.is_call() {
            self.frame.fill(CALL_FILL);
        }
        let (state, slots, out) = (self.state, &mut self.slots, &mut self.frame);
        let outcome = match *command {
            LinkCommand::Lend { slots, frame } => {
                refill(&mut self.slots, slots, KEPT_FILL);
                refill(&mut self.frame, frame, CALL_FILL);
                return None;
            }
            LinkCommand::State(state) => {
                self.state = state;
                return None;
            }
            LinkCommand::Start(settings) => link::start(settings, slots),
            LinkCommand::Submit { ms, packet } => link::submit(state, slots, out, ms, packet),
            LinkCommand::Take { ms, frame } => link::take(state, slots, out, ms, frame),
            LinkCommand::Look { ms } => link::look(state, slots, out, ms),
            LinkCommand::Acknowledge { ms } => link::acknowledge(state, slots, out, ms),
            LinkCommand::Resynchronise { ms } => link::resynchronise(state, slots, out, ms),
        };
        self.state = outcome.state;
        Some(outcome)
    }

    /// ANSWER SENT DELIVERED DROPPED, the settings, the state, both buffers, whole because
    /// the bytes that a call must leave alone are compared, too, and ORDER.
    pub(super) fn print(&self, outcome: &Outcome, out: &mut Vec<u8>) {
        let told = [
            outcome.answer.into(),
            outcome.sent.into(),
            outcome.delivered.into(),
            outcome.dropped.into(),
        ];
        numbers(&told, out);
        then_numbers(&settings_numbers(&outcome.state.settings), out);
        then_numbers(&state_numbers(&outcome.state), out);
        then_hex(&self.slots, out);
        then_hex(&self.frame, out);
        then_order(&outcome.state.settings, out);
    }
}

/// D WIN TRANS ACK REP [ORDER]
fn read_start(fields: &mut Fields<'_, '_>) -> Option<Settings> {
    let settings = read_settings(fields)?;
    read_order(fields, settings)
}

/// ORDER stands apart from the other settings, at the end of its line, where lines that were
/// written before it do without.
fn read_order(fields: &mut Fields<'_, '_>, settings: Settings) -> Option<Settings> {
    Some(Settings {
        order: fields.u8_or_0()?,
        ..settings
    })
}

fn then_order(settings: &Settings, out: &mut Vec<u8>) {
    then_numbers(&[settings.order.into()], out);
}

/// D WIN TRANS ACK REP
fn read_settings(fields: &mut Fields<'_, '_>) -> Option<Settings> {
    Some(Settings {
        data_reg_len: fields.u16()?,
        window: fields.u8()?,
        transmit_timeout: fields.u16()?,
        acknowledge_timeout: fields.u16()?,
        repeats: fields.u8()?,
        ..Settings::default()
    })
}

/// The order of `read_settings`.
fn settings_numbers(settings: &Settings) -> [u32; 5] {
    [
        settings.data_reg_len.into(),
        settings.window.into(),
        settings.transmit_timeout.into(),
        settings.acknowledge_timeout.into(),
        settings.repeats.into(),
    ]
}

/// The settings, then NEXT to LOST, then ORDER.
fn read_state(fields: &mut Fields<'_, '_>) -> Option<State> {
    let state = State {
        settings: read_settings(fields)?,
        next: fields.u8()?,
        expected: fields.u8()?,
        waiting: fields.u8()?,
        length: [fields.u16()?, fields.u16()?],
        started: [fields.u32()?, fields.u32()?],
        repeated: [fields.u8()?, fields.u8()?],
        acking: fields.mark()?,
        acknowledge_start: fields.u32()?,
        nak_mark: fields.mark()?,
        lost: fields.mark()?,
    };
    Some(State {
        settings: read_order(fields, state.settings)?,
        ..state
    })
}

/// The order of `read_state`, without the settings.
fn state_numbers(state: &State) -> [u32; 13] {
    [
        state.next.into(),
        state.expected.into(),
        state.waiting.into(),
        state.length[0].into(),
        state.length[1].into(),
        state.started[0],
        state.started[1],
        state.repeated[0].into(),
        state.repeated[1].into(),
        state.acking.into(),
        state.acknowledge_start,
        state.nak_mark.into(),
        state.lost.into(),
    ]
}
