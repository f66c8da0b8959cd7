//! The lines of commands: what is written is read back.

use peer::chain::Joining;
use peer::link::{Settings, State};
use peer::script::{parse, write, ChainCommand, Command, LinkCommand};

const SETTINGS: Settings = Settings {
    data_reg_len: 1,
    transmit_timeout: 3,
    acknowledge_timeout: 4,
    window: 2,
    repeats: 5,
    order: 17,
};

const STATE: State = State {
    settings: SETTINGS,
    started: [11, 12],
    acknowledge_start: 16,
    length: [9, 10],
    repeated: [13, 14],
    next: 6,
    expected: 7,
    waiting: 8,
    acking: true,
    nak_mark: false,
    lost: true,
};

const JOINING: Joining = Joining {
    joined: 2,
    open: true,
};

const WRITTEN: [(&str, Option<&str>, Command<'static>); 12] = [
    (
        "lend 1 2",
        None,
        Command::Link(LinkCommand::Lend { slots: 1, frame: 2 }),
    ),
    (
        "state 1 2 3 4 5 6 7 8 9 10 11 12 13 14 1 16 0 1 17",
        None,
        Command::Link(LinkCommand::State(STATE)),
    ),
    ("room 7", None, Command::Chain(ChainCommand::Room(7))),
    (
        "joining 1 2",
        None,
        Command::Chain(ChainCommand::Joining(JOINING)),
    ),
    (
        "start 1 2 3 4 5 17",
        Some("start"),
        Command::Link(LinkCommand::Start(SETTINGS)),
    ),
    (
        "submit 1 0AFF",
        Some("submit"),
        Command::Link(LinkCommand::Submit {
            ms: 1,
            packet: &[0x0A, 0xFF],
        }),
    ),
    (
        "take 2 -",
        Some("take"),
        Command::Link(LinkCommand::Take { ms: 2, frame: &[] }),
    ),
    (
        "look 3",
        Some("look"),
        Command::Link(LinkCommand::Look { ms: 3 }),
    ),
    (
        "acknowledge 4",
        Some("acknowledge"),
        Command::Link(LinkCommand::Acknowledge { ms: 4 }),
    ),
    (
        "resynchronise 4294967295",
        Some("resynchronise"),
        Command::Link(LinkCommand::Resynchronise { ms: u32::MAX }),
    ),
    (
        "join 5 00",
        Some("join"),
        Command::Chain(ChainCommand::Join {
            limit: 5,
            packet: &[0],
        }),
    ),
    (
        "cut 6 7 8 01",
        Some("cut"),
        Command::Chain(ChainCommand::Cut {
            limit: 6,
            index: 7,
            buffer: 8,
            message: &[1],
        }),
    ),
];

#[test]
fn what_is_written_is_read_back() {
    for (text, call, command) in WRITTEN {
        let mut line = Vec::new();
        write(&command, &mut line);
        assert_eq!(String::from_utf8_lossy(&line), text);
        assert_eq!(parse(&line, &mut Vec::new()), Some(command));
        assert_eq!(command.call(), call);
    }
}

/// What was written before there was an ORDER means what it meant.
#[test]
fn order_is_0_where_it_is_left_out() {
    for line in [
        "start 1 2 3 4 5",
        "state 1 2 3 4 5 6 7 8 9 10 11 12 13 14 1 16 0 1",
    ] {
        let whole = format!("{line} 0");
        let (mut short, mut long) = (Vec::new(), Vec::new());
        let read = parse(line.as_bytes(), &mut short);
        assert!(read.is_some());
        assert_eq!(read, parse(whole.as_bytes(), &mut long));
    }
}
