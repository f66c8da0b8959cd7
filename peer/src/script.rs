//! The rig's script format: lines in, calls made, lines out.

mod buffers;
mod chain_commands;
mod command;
mod fields;
mod lines;
mod link_commands;
mod rig;

pub(crate) use chain_commands::{cut_numbers, join_numbers};
pub use chain_commands::{ChainCommand, ChainOutcome, ChainRig};
pub use command::{parse, write, Command};
pub(crate) use fields::{hex, numbers, then_hex, then_numbers, Fields};
pub use lines::{Line, Lines, LINE_LIMIT};
pub use link_commands::{LinkCommand, LinkRig};
pub use rig::{Rig, Said};

use std::io::{self, BufRead, Write};

/// What one line asks for.
#[derive(Debug, PartialEq, Eq)]
pub enum Reading<'a> {
    /// a blank line or a comment
    Silent,
    Bad,
    Do(Command<'a>),
}

/// The scratch buffer holds the line's byte field.
pub fn read<'a>(line: &Line<'_>, scratch: &'a mut Vec<u8>) -> Reading<'a> {
    let text = match line {
        Line::Whole([] | [b'#', ..]) => return Reading::Silent,
        Line::Whole(text) => text,
        Line::OverLong => return Reading::Bad,
    };
    match parse(text, scratch) {
        Some(command) => Reading::Do(command),
        None => Reading::Bad,
    }
}

/// Prints what `work` adds for each line of an input, which is told the line and its number.
pub(crate) fn answer_lines<R, W, F>(input: R, output: &mut W, mut work: F) -> io::Result<()>
where
    R: BufRead,
    W: Write,
    F: FnMut(&Line<'_>, u64, &mut Vec<u8>) -> io::Result<Ending>,
{
    let mut lines = Lines::new(input);
    let mut text = Vec::new();
    let mut number: u64 = 0;
    while let Some(line) = lines.next()? {
        number = number.saturating_add(1);
        text.clear();
        let ending = work(&line, number, &mut text)?;
        if ending == Ending::AsRead && lines.ended() {
            text.push(b'\n');
        }
        output.write_all(&text)?;
    }
    output.flush()
}

/// How what is printed for a line ends: by itself, or with LF where the line had one.
#[derive(PartialEq, Eq)]
pub(crate) enum Ending {
    Own,
    AsRead,
}

/// Reads a script and prints what the rig prints.
pub fn replay<R: BufRead, W: Write>(input: R, output: &mut W) -> io::Result<()> {
    let mut rig = Rig::default();
    let mut scratch = Vec::new();
    answer_lines(input, output, |line, number, text| {
        match read(line, &mut scratch) {
            Reading::Silent => {}
            Reading::Bad => writeln!(text, "bad line {number}")?,
            Reading::Do(command) => {
                if let Some(said) = rig.execute(&command) {
                    rig.print(&said, text);
                }
            }
        }
        Ok(Ending::Own)
    })
}
