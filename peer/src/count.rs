//! Counts what a script makes happen, so that a generator that misses something shows.

use std::collections::BTreeMap;
use std::io::{self, BufRead, Write};

use crate::answer;
use crate::bus;
use crate::frame::{self, Data, Heard, OVERHEAD};
use crate::link::{elapsed, Outcome, Settings, State};
use crate::script::{read, ChainOutcome, Command, Lines, LinkCommand, Reading, Rig, Said};

/// The answers that each call has: R9, R7.5.
const ANSWERS: [(&str, &[u8]); 8] = [
    ("start", &[0, 1, 2]),
    ("submit", &[0, 1, 2, 3, 4, 5]),
    ("take", &[0, 1, 2, 3, 6, 7, 8, 9, 17, 18]),
    ("look", &[0, 1, 2, 3]),
    ("acknowledge", &[0, 1, 2, 3]),
    ("resynchronise", &[0, 1, 2]),
    ("cut", &[0, 1, 2, 13, 16]),
    ("join", &[0, 1, 2, 4, 10, 11, 12, 14, 15]),
];

const EVENTS: [&str; 34] = [
    "bad-line",
    "take-repeat",
    "take-9-with-repeat",
    "take-9-stops-timer",
    "take-delivered-with-repeat",
    "delivery-clears-nak",
    "delivery-keeps-timer",
    "nak-sent",
    "nak-suppressed",
    "nak-exhausted",
    "ack-frees-two",
    "ack-frees-none",
    "reset-drops",
    "resynchronise-lost",
    "submit-4-when-full",
    "look-repeats-oldest",
    "look-repeats-newer",
    "look-acks",
    "look-loses",
    "look-loses-over-newer",
    "wrapped-clock-due",
    "backward-clock-due",
    "join-message",
    "join-fault-07",
    "start-1-by-order",
    "state-1-by-order",
    "take-6-other-order",
    "take-6-reset-in-other-order",
    "high-first-takes-reset",
    "high-first-delivers",
    "high-first-sends-reset",
    "high-first-sends-data",
    "high-first-sends-nak",
    "high-first-sends-ack",
];

/// An elapsed time below this, with a clock below its start, is taken for a wrap;
/// above, for a clock that went back.
const HALF: u32 = 1 << 31;

#[derive(Debug)]
pub struct Tally {
    answers: BTreeMap<(&'static str, u8), u64>,
    events: BTreeMap<&'static str, u64>,
}

impl Default for Tally {
    fn default() -> Tally {
        let answers = ANSWERS
            .iter()
            .flat_map(|&(call, answers)| answers.iter().map(move |&answer| ((call, answer), 0)));
        Tally {
            answers: answers.collect(),
            events: EVENTS.iter().map(|&event| (event, 0)).collect(),
        }
    }
}

/// Replays a script silently.
pub fn count<R: BufRead>(input: R) -> io::Result<Tally> {
    let mut lines = Lines::new(input);
    let mut rig = Rig::default();
    let mut scratch = Vec::new();
    let mut tally = Tally::default();
    while let Some(line) = lines.next()? {
        match read(&line, &mut scratch) {
            Reading::Silent => {}
            Reading::Bad => tally.event("bad-line", true),
            Reading::Do(command) => {
                let before = rig.link.state;
                if let Some(said) = rig.execute(&command) {
                    tally.note(&before, &command, &said, rig.link.frame());
                }
            }
        }
    }
    Ok(tally)
}

impl Tally {
    /// `CALL ANSWER COUNT` lines, then `event NAME COUNT` lines, both sorted.
    pub fn print<W: Write>(&self, out: &mut W) -> io::Result<()> {
        for ((call, answer), count) in &self.answers {
            writeln!(out, "{call} {answer} {count}")?;
        }
        for (event, count) in &self.events {
            writeln!(out, "event {event} {count}")?;
        }
        out.flush()
    }

    pub fn calls(&self) -> u64 {
        self.answers.values().sum()
    }

    /// What never occurred, and answers that their call does not have.
    pub fn faults(&self) -> Vec<String> {
        let given = |call: &str, answer: u8| {
            ANSWERS
                .iter()
                .any(|&(name, answers)| name == call && answers.contains(&answer))
        };
        let never = |name: String| format!("never: {name}");
        let answers = self.answers.iter().filter_map(|(&(call, answer), &count)| {
            match (given(call, answer), count) {
                (true, 0) => Some(never(format!("{call} {answer}"))),
                (true, _) => None,
                (false, _) => Some(format!("not an answer of {call}: {answer}")),
            }
        });
        let events = self.events.iter().filter(|(_, &count)| count == 0);
        answers
            .chain(events.map(|(event, _)| never(format!("event {event}"))))
            .collect()
    }

    fn event(&mut self, name: &'static str, occurred: bool) {
        if occurred {
            *self.events.entry(name).or_default() += 1;
        }
    }

    /// The frame buffer is the one that the call left.
    fn note(&mut self, before: &State, command: &Command<'_>, said: &Said, frame: &[u8]) {
        if let Some(call) = command.call() {
            *self.answers.entry((call, said.answer())).or_default() += 1;
        }
        match (command, said) {
            (Command::Link(command), Said::Link(outcome)) => {
                self.note_link(before, command, outcome);
                self.note_order(before, command, outcome);
                if let Some(sent) = bus::sent(frame, outcome) {
                    self.note_sent(before, sent);
                }
            }
            (_, Said::Chain(ChainOutcome::Join(joined))) => {
                self.event("join-message", joined.length > 0);
                self.event("join-fault-07", joined.fault == 7);
            }
            _ => {}
        }
    }

    fn note_link(&mut self, before: &State, command: &LinkCommand<'_>, outcome: &Outcome) {
        match *command {
            LinkCommand::Take { frame, .. } => self.note_take(before, frame, outcome),
            LinkCommand::Look { ms } => self.note_look(before, ms, outcome),
            LinkCommand::Submit { .. } => {
                let full = before.waiting >= before.settings.window;
                let refused = outcome.answer == answer::PACKET_SIZE;
                self.event("submit-4-when-full", refused && full);
            }
            LinkCommand::Resynchronise { .. } => {
                let done = outcome.answer == answer::DONE;
                self.event("resynchronise-lost", done && before.lost);
            }
            _ => {}
        }
    }

    fn note_order(&mut self, before: &State, command: &LinkCommand<'_>, outcome: &Outcome) {
        if outcome.answer != answer::OUT_OF_RANGE {
            return;
        }
        match command {
            LinkCommand::Start(settings) => {
                self.event("start-1-by-order", with_right_order(settings).in_range());
            }
            _ => {
                let state = State {
                    settings: with_right_order(&before.settings),
                    ..*before
                };
                self.event("state-1-by-order", state.well_formed());
            }
        }
    }

    fn note_sent(&mut self, before: &State, sent: &[u8]) {
        let name = match before.settings.hear(sent) {
            Heard::Reset => "high-first-sends-reset",
            Heard::Ack(_) => "high-first-sends-ack",
            Heard::Nak(_) => "high-first-sends-nak",
            Heard::Data(_) => "high-first-sends-data",
            _ => return,
        };
        self.event(name, before.settings.high_first());
    }

    fn note_take(&mut self, before: &State, frame: &[u8], outcome: &Outcome) {
        let sent = outcome.sent > 0;
        if outcome.answer == answer::FRAME_SUM {
            self.note_wrong_sum(before, frame);
        }
        match outcome.answer {
            answer::FRAME_SIZE | answer::FRAME_SUM | answer::UNUSED_CODE | answer::FRAME_LENGTH => {
                self.event("nak-sent", sent);
                self.event("nak-suppressed", !sent);
            }
            answer::DONE | answer::NOT_EXPECTED => {
                self.note_heard(before, frame, outcome);
            }
            _ => {}
        }
    }

    fn note_wrong_sum(&mut self, before: &State, frame: &[u8]) {
        let mut turned = frame.to_vec();
        frame::turn(&mut turned);
        let heard = before.settings.hear(&turned);
        self.event("take-6-other-order", heard != Heard::Sum);
        self.event("take-6-reset-in-other-order", heard == Heard::Reset);
    }

    fn note_heard(&mut self, before: &State, frame: &[u8], outcome: &Outcome) {
        let sent = outcome.sent > 0;
        match before.settings.hear(frame) {
            Heard::Reset => {
                self.event("reset-drops", outcome.dropped > 0);
                self.event("high-first-takes-reset", before.settings.high_first());
            }
            Heard::Ack(_) => self.note_ack(before, outcome),
            Heard::Nak(k) => {
                self.event("take-repeat", sent);
                self.event("nak-exhausted", before.waits(k) && before.exhausted(k));
            }
            Heard::Data(data) => self.note_data(before, data, outcome),
            _ => {}
        }
    }

    fn note_ack(&mut self, before: &State, outcome: &Outcome) {
        let freed = before.waiting.saturating_sub(outcome.state.waiting);
        self.event("ack-frees-two", freed == 2);
        self.event("ack-frees-none", before.waiting > 0 && freed == 0);
    }

    fn note_data(&mut self, before: &State, data: Data, outcome: &Outcome) {
        let repeated = outcome.sent > OVERHEAD;
        let delivered = outcome.delivered > 0;
        if !data.nak {
            self.note_ack(before, outcome);
        }
        self.event("take-9-with-repeat", !delivered && repeated);
        self.event(
            "take-9-stops-timer",
            !delivered && !repeated && before.acking,
        );
        self.event("take-delivered-with-repeat", delivered && repeated);
        self.event("delivery-clears-nak", delivered && before.nak_mark);
        self.event(
            "high-first-delivers",
            delivered && before.settings.high_first(),
        );
        self.event(
            "delivery-keeps-timer",
            delivered && !repeated && before.acking,
        );
    }

    fn note_look(&mut self, before: &State, now: u32, outcome: &Outcome) {
        if before.lost {
            return;
        }
        if outcome.answer == answer::LINK_LOST {
            self.event("look-loses", true);
            self.event("look-loses-over-newer", loses_over_newer(before, now));
        }
        if outcome.sent == 0 {
            return;
        }
        let mut numbers = before.waiting_numbers();
        let changed = |&number: &u8| {
            let slot = before.slot(number);
            before.repeated[slot] != outcome.state.repeated[slot]
        };
        let start = match numbers.find(changed) {
            Some(number) => {
                let oldest = number == before.oldest();
                self.event("look-repeats-oldest", oldest);
                self.event("look-repeats-newer", !oldest);
                before.started[before.slot(number)]
            }
            None => {
                self.event("look-acks", true);
                before.acknowledge_start
            }
        };
        let wrapped = elapsed(start, now) < HALF;
        self.event("wrapped-clock-due", now < start && wrapped);
        self.event("backward-clock-due", now < start && !wrapped);
    }
}

/// Where these pass, what was refused is the order alone.
fn with_right_order(settings: &Settings) -> Settings {
    Settings {
        order: frame::LOW_FIRST,
        ..*settings
    }
}

/// The oldest loses the link although the newer is due and could be repeated.
fn loses_over_newer(before: &State, now: u32) -> bool {
    let timeout = u32::from(before.settings.transmit_timeout);
    let newer = before.waiting_numbers().nth(1);
    newer.is_some_and(|number| {
        let due = elapsed(before.started[before.slot(number)], now) >= timeout;
        let older_due = elapsed(before.started[before.slot(before.oldest())], now) >= timeout;
        due && older_due && !before.exhausted(number)
    })
}
