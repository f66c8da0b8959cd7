//! Worked examples: each line an input, then ` -> `, then what it gives. What stands behind
//! the arrow is computed, never read, so a text is printed again exactly when it is right.

use std::io::{self, BufRead, Write};

use crate::checksum::checksum;
use crate::frame::{hear, Heard};
use crate::script::{
    answer_lines, cut_numbers, hex, join_numbers, numbers, then_hex, then_numbers, ChainCommand,
    ChainOutcome, ChainRig, Command, Ending, Fields, Line, LinkCommand, LinkRig, Rig,
};

const ARROW: &[u8] = b" -> ";

/// Where the packet begins in a received frame.
const PACKET_BEGIN: usize = 3;

/// What a line asks for, read from its left side alone.
#[derive(Debug, PartialEq, Eq)]
enum Left<'a> {
    Checksum(&'a [u8]),
    Hear {
        data_reg_len: u16,
        frame: &'a [u8],
        order: u8,
    },
    Script(Command<'a>),
}

impl Left<'_> {
    /// Whether the line only prepares a call; such a line has no arrow.
    fn prepares(&self) -> bool {
        matches!(self, Left::Script(command) if command.call().is_none())
    }
}

/// Reads examples and prints them with the right sides that are computed here. A last line
/// without LF is printed without one.
pub fn examples<R: BufRead, W: Write>(input: R, output: &mut W) -> io::Result<()> {
    let mut rig = Rig::default();
    let mut scratch = Vec::new();
    answer_lines(input, output, |line, number, text| {
        if work(line, &mut rig, &mut scratch, text).is_none() {
            write!(text, "bad line {number}")?;
        }
        Ok(Ending::AsRead)
    })
}

/// Adds one line as it should be. None for a bad line, which adds and changes nothing.
fn work(line: &Line<'_>, rig: &mut Rig, scratch: &mut Vec<u8>, out: &mut Vec<u8>) -> Option<()> {
    let line = match line {
        Line::Whole(text @ ([] | [b'#', ..])) => {
            out.extend_from_slice(text);
            return Some(());
        }
        Line::Whole(text) => text,
        Line::OverLong => return None,
    };
    let (left, arrow) = left_side(line);
    let asked = read_left(left, scratch)?;
    let prepares = asked.prepares();
    if prepares && arrow {
        return None;
    }
    out.extend_from_slice(left);
    if !prepares {
        out.extend_from_slice(ARROW);
    }
    right_side(&asked, rig, out);
    Some(())
}

/// What stands before the first arrow, and whether there is one.
fn left_side(line: &[u8]) -> (&[u8], bool) {
    let arrow = line.windows(ARROW.len()).position(|part| part == ARROW);
    match arrow.and_then(|place| line.get(..place)) {
        Some(left) => (left, true),
        None => (line, false),
    }
}

/// None for a bad line. The byte field, if any, is left in the scratch buffer.
fn read_left<'a>(left: &[u8], scratch: &'a mut Vec<u8>) -> Option<Left<'a>> {
    let mut fields = Fields::of(left, scratch);
    let asked = match fields.next()? {
        b"checksum" => Left::Checksum(fields.bytes()?),
        b"hear" => Left::Hear {
            data_reg_len: fields.u16()?,
            frame: fields.bytes()?,
            order: fields.u8_or_0()?,
        },
        word => Left::Script(Command::of(word, &mut fields)?),
    };
    fields.end()?;
    Some(asked)
}

/// Nothing for lines that only prepare a call, but they are obeyed.
fn right_side(asked: &Left<'_>, rig: &mut Rig, out: &mut Vec<u8>) {
    match asked {
        Left::Checksum(bytes) => hex(&checksum(bytes).to_be_bytes(), out),
        Left::Hear {
            data_reg_len,
            frame,
            order,
        } => heard_side(hear(frame, *data_reg_len, *order), out),
        Left::Script(Command::Link(command)) => link_side(&mut rig.link, command, out),
        Left::Script(Command::Chain(command)) => chain_side(&mut rig.chain, command, out),
    }
}

/// NUMBER WORDS
fn heard_side(heard: Heard, out: &mut Vec<u8>) {
    numbers(&[heard.refusal().into()], out);
    out.push(b' ');
    out.extend_from_slice(words(heard).as_bytes());
}

fn words(heard: Heard) -> String {
    match heard {
        Heard::Size => "size".to_string(),
        Heard::Sum => "checksum".to_string(),
        Heard::Code => "code".to_string(),
        Heard::ControlSize => "control".to_string(),
        Heard::Length => "length".to_string(),
        Heard::Reset => "reset".to_string(),
        Heard::Ack(k) => format!("ack {k}"),
        Heard::Nak(k) => format!("nak {k}"),
        Heard::Data(data) => {
            let told = if data.nak { "nak" } else { "ack" };
            format!(
                "data {} {told} {}, {} bytes",
                data.number, data.k, data.length
            )
        }
    }
}

/// ANSWER SENT DELIVERED DROPPED for calls
fn link_side(rig: &mut LinkRig, command: &LinkCommand<'_>, out: &mut Vec<u8>) {
    let Some(outcome) = rig.execute(command) else {
        return;
    };
    numbers(&[outcome.answer.into()], out);
    then_hex(first(rig.frame(), outcome.sent), out);
    then_hex(first(packet_bytes(command), outcome.delivered), out);
    then_numbers(&[outcome.dropped.into()], out);
}

/// The bytes that a delivered packet is the beginning of; none for calls that deliver nothing.
fn packet_bytes<'a>(command: &LinkCommand<'a>) -> &'a [u8] {
    match *command {
        LinkCommand::Take { frame, .. } => frame.get(PACKET_BEGIN..).unwrap_or_default(),
        _ => &[],
    }
}

/// ANSWER LENGTH FAULT OPEN JOINED for join, ANSWER LENGTH COUNT PACKET for cut
fn chain_side(rig: &mut ChainRig, command: &ChainCommand<'_>, out: &mut Vec<u8>) {
    match rig.execute(command) {
        None => {}
        Some(ChainOutcome::Join(joined)) => join_numbers(&joined, out),
        Some(ChainOutcome::Cut(piece)) => {
            cut_numbers(&piece, out);
            then_hex(first(rig.packet(), piece.length), out);
        }
    }
}

/// No call tells more bytes than its buffer has.
fn first(bytes: &[u8], length: u16) -> &[u8] {
    bytes.get(..usize::from(length)).unwrap_or_default()
}
