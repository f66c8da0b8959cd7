//! R3.8: the order of FCS is a setting, and the two orders differ in nothing but turned frames.

mod common;

use common::{control, data, ordered, turned, Bench, ORDERS};
use peer::bus::sent;
use peer::frame::{fcs, hear, Heard};
use peer::generate::generate;
use peer::link::{Outcome, Settings, State};
use peer::random::Random;
use peer::script::{read, Command, Lines, LinkCommand, LinkRig, Reading};

/// The other order; what is no order has none.
fn other(order: u8) -> u8 {
    match order {
        0 | 1 => 1 - order,
        _ => order,
    }
}

fn other_settings(settings: Settings) -> Settings {
    Settings {
        order: other(settings.order),
        ..settings
    }
}

/// A refused start leaves zeros, whatever was asked for.
fn other_state(state: State) -> State {
    if state == State::default() {
        return state;
    }
    State {
        settings: other_settings(state.settings),
        ..state
    }
}

/// The call that is the same at an end of the other order.
fn other_call<'a>(command: LinkCommand<'a>, room: &'a mut Vec<u8>) -> LinkCommand<'a> {
    match command {
        LinkCommand::State(state) => LinkCommand::State(other_state(state)),
        LinkCommand::Start(settings) => LinkCommand::Start(other_settings(settings)),
        LinkCommand::Take { ms, frame } => {
            *room = turned(frame);
            LinkCommand::Take { ms, frame: room }
        }
        command => command,
    }
}

/// Makes each call at two ends, and tells how many sent a frame.
fn side_by_side(script: &[u8]) -> u32 {
    let mut lines = Lines::new(script);
    let (mut one, mut two) = (LinkRig::default(), LinkRig::default());
    let (mut scratch, mut room) = (Vec::new(), Vec::new());
    let mut frames = 0;
    while let Some(line) = lines.next().expect("a slice gives everything") {
        let Reading::Do(Command::Link(command)) = read(&line, &mut scratch) else {
            continue;
        };
        let told = one.execute(&command);
        let other = two.execute(&other_call(command, &mut room));
        let expected = told.map(|outcome| Outcome {
            state: other_state(outcome.state),
            ..outcome
        });
        assert_eq!(other, expected, "{command:?}");
        let Some(outcome) = told else {
            continue;
        };
        let [one_sent, two_sent] = [&one, &two].map(|rig| sent(rig.frame(), &outcome));
        assert_eq!(two_sent.map(<[u8]>::to_vec), one_sent.map(turned));
        frames += u32::from(one_sent.is_some());
    }
    frames
}

/// So whatever is tested in one order holds in the other.
#[test]
fn ends_of_either_order_do_the_same_with_turned_frames() {
    for seed in [1, 2, 3] {
        let mut script = Vec::new();
        generate(seed, 20_000, &mut script).expect("a vector takes everything");
        assert!(side_by_side(&script) > 5_000);
    }
}

#[test]
fn every_call_keeps_the_order() {
    for order in ORDERS {
        for waiting in 0..=2 {
            let bench = Bench::waiting(ordered(order), waiting);
            for (call, _, outcome) in bench.every_call() {
                assert_eq!(outcome.state.settings, ordered(order), "{call}");
            }
        }
    }
}

/// As five zero bytes are.
#[test]
fn equal_bytes_of_fcs_are_right_in_both_orders() {
    let mut random = Random::new(14);
    let mut equal = 0;
    for _ in 0..20_000 {
        let packet = random.bytes(4);
        let frame = data(0x03, &packet);
        let same = turned(&frame) == frame;
        for order in ORDERS {
            let frame = [frame.clone(), turned(&frame)];
            let heard = frame.map(|frame| hear(&frame, 16, order) != Heard::Sum);
            assert_eq!(heard, [same || order == 0, same || order == 1]);
        }
        equal += u32::from(same);
    }
    assert!(equal > 20);
}

#[test]
fn what_is_no_order_is_heard_as_low_byte_first() {
    for order in 2..=u8::MAX {
        assert_eq!(fcs(&[0x80, 0, 0], order), [0xEC, 0x0C]);
        assert_eq!(hear(&control(0x80), 16, order), Heard::Ack(0));
        assert_eq!(hear(&turned(&control(0x80)), 16, order), Heard::Sum);
    }
}

/// It is the low byte first that makes the sum of a frame with its FCS 0.
#[test]
fn zeros_behind_a_frame_are_noticed_where_the_high_byte_goes_first() {
    for frame in [data(0x03, &[1, 2, 3]), control(0x80), control(0x84)] {
        let mut frame = turned(&frame);
        for _ in 0..2 {
            frame.push(0);
            assert_eq!(hear(&frame, 16, 1), Heard::Sum);
        }
    }
}
