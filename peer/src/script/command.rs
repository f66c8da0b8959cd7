//! What one line of a script says, whichever layer it is for.

use super::chain_commands::ChainCommand;
use super::fields::Fields;
use super::link_commands::LinkCommand;

#[derive(Clone, Copy, Debug, PartialEq, Eq)]
pub enum Command<'a> {
    Link(LinkCommand<'a>),
    Chain(ChainCommand<'a>),
}

impl<'a> From<LinkCommand<'a>> for Command<'a> {
    fn from(command: LinkCommand<'a>) -> Command<'a> {
        Command::Link(command)
    }
}

impl<'a> From<ChainCommand<'a>> for Command<'a> {
    fn from(command: ChainCommand<'a>) -> Command<'a> {
        Command::Chain(command)
    }
}

impl<'a> Command<'a> {
    /// Reads the fields behind a word. None for a word of no command and for bad fields.
    pub(crate) fn of(word: &[u8], fields: &mut Fields<'_, 'a>) -> Option<Command<'a>> {
        // No word is of both layers, so bad fields for the one are no command of the other.
        let link = LinkCommand::of(word, fields).map(Command::Link);
        link.or_else(|| ChainCommand::of(word, fields).map(Command::Chain))
    }
}

impl Command<'_> {
    /// The name of one of the eight calls; none for lines that only prepare one.
    pub fn call(&self) -> Option<&'static str> {
        let is_call = match self {
            Command::Link(command) => command.is_call(),
            Command::Chain(command) => command.is_call(),
        };
        is_call.then_some(self.word())
    }

    /// ORDER, which is the last field of the lines that have it.
    pub(crate) fn order(&self) -> Option<u8> {
        match self {
            Command::Link(command) => command.order(),
            Command::Chain(_) => None,
        }
    }

    fn word(&self) -> &'static str {
        match self {
            Command::Link(command) => command.word(),
            Command::Chain(command) => command.word(),
        }
    }
}

/// None for a bad line. The byte field, if any, is left in the scratch buffer.
pub fn parse<'a>(line: &[u8], scratch: &'a mut Vec<u8>) -> Option<Command<'a>> {
    let mut fields = Fields::of(line, scratch);
    let word = fields.next()?;
    let command = Command::of(word, &mut fields)?;
    fields.end()?;
    Some(command)
}

/// The line of a command, without its LF. What `parse` reads back is the same command.
pub fn write(command: &Command<'_>, out: &mut Vec<u8>) {
    out.extend_from_slice(command.word().as_bytes());
    match command {
        Command::Link(command) => command.write_fields(out),
        Command::Chain(command) => command.write_fields(out),
    }
}
