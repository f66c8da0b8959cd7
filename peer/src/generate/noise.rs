//! Lines that are no commands: comments, blank lines, and bad lines of every kind.

use crate::random::Random;
use crate::script::LINE_LIMIT;

const SILENT: [&str; 5] = ["", "#", "# note", "#look 5", "# \u{7f}\t\r"];

const BAD: [&str; 71] = [
    " ",
    "  ",
    "\r",
    "\t",
    " # note",
    "look",
    "look ",
    "look  5",
    " look 5",
    "look 5 ",
    "look 5\r",
    "look\t5",
    "look 5 5",
    "Look 5",
    "LOOK 5",
    "looks 5",
    "loo 5",
    "look -",
    "look -1",
    "look +1",
    "look 1.0",
    "look 0x5",
    "look 5a",
    "look 4294967296",
    "look 18446744073709551616",
    "acknowledge",
    "acknowledge 4294967296",
    "resynchronise now",
    "resynchronize 5",
    "submit 5",
    "submit 5 ",
    "submit 5 0",
    "submit 5 000",
    "submit 5 0g",
    "submit 5 G0",
    "submit 5 --",
    "submit 5 -00",
    "submit 5 00 00",
    "submit - 00",
    "take 5",
    "take 5 0",
    "take 5 0x00",
    "take 4294967296 -",
    "lend 5",
    "lend 4097 16",
    "lend 22 4097",
    "lend 22 16 1",
    "room",
    "room 8193",
    "room -",
    "joining 1",
    "joining 2 0",
    "joining 0 65536",
    "start 16 1 2 1",
    "start 65536 1 2 1 1",
    "start 16 256 2 1 1",
    "start 16 1 2 1 1 ",
    "start 16 1 2 1 1 -",
    "start 16 1 2 1 1 256",
    "start 16 1 2 1 1 0 0",
    "state 16 1 2 1 1 0 0 0 0 0 0 0 0 0 0 0 0",
    "state 16 1 2 1 1 0 0 0 0 0 0 0 0 0 0 0 0 2",
    "state 16 1 2 1 1 0 0 0 0 0 0 0 0 0 0 0 0 0 ",
    "state 16 1 2 1 1 0 0 0 0 0 0 0 0 0 0 0 0 0 x1",
    "state 16 1 2 1 1 0 0 0 0 0 0 0 0 0 0 0 0 0 256",
    "state 16 1 2 1 1 0 0 0 0 0 0 0 0 0 0 0 0 0 1 0",
    "join 65536 0001",
    "join 11",
    "cut 11 0 1025 01",
    "cut 11 4294967296 11 01",
    "cut 11 0 11",
];

pub fn line(random: &mut Random) -> Vec<u8> {
    match random.below(200) {
        0 => vec![b'0'; LINE_LIMIT + 1],
        1 => too_many_bytes(),
        2 => long_comment(LINE_LIMIT),
        3 => long_comment(LINE_LIMIT + 1),
        4..=33 => rubbish(random),
        34..=73 => random.pick(SILENT).into(),
        _ => random.pick(BAD).into(),
    }
}

/// A byte field one byte too long, in a line that is not.
fn too_many_bytes() -> Vec<u8> {
    let mut line = b"submit 5 ".to_vec();
    line.resize(line.len() + 2 * 8193, b'0');
    line
}

fn long_comment(length: usize) -> Vec<u8> {
    let mut line = vec![b'#'];
    line.resize(length, b'.');
    line
}

/// Any bytes; an LF among them would only make two lines of it, so it goes.
fn rubbish(random: &mut Random) -> Vec<u8> {
    let length = random.index(40);
    let mut line = random.bytes(length);
    line.retain(|&byte| byte != b'\n');
    line
}

/// Which field of a line; the last is a number only in lines that end in ORDER.
pub enum Field {
    First,
    Last,
}

/// Before a number: a few, or as many as just make the longest line allowed.
pub fn add_zeros(random: &mut Random, line: &mut Vec<u8>, field: Field) {
    let mut bytes = line.iter();
    let space = |&byte: &u8| byte == b' ';
    let place = match field {
        Field::First => bytes.position(space),
        Field::Last => bytes.rposition(space),
    };
    let Some(space) = place else {
        return;
    };
    let zeros = match random.below(20) {
        0 => LINE_LIMIT.saturating_sub(line.len()),
        _ => 1 + random.index(12),
    };
    let number = line.split_off(space + 1);
    line.resize(line.len() + zeros, b'0');
    line.extend_from_slice(&number);
}

/// The end of a script: nothing, or a last line without LF.
pub fn last_line(random: &mut Random) -> &'static [u8] {
    random.pick([&b""[..], b"# end", b"look", b"\r"])
}
