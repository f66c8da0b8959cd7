//! One end of the link: a state by value, a lent slot buffer, six calls.

use crate::answer;
use crate::frame::{self, Data, Heard};

#[derive(Clone, Copy, Debug, Default, PartialEq, Eq)]
pub struct Settings {
    /// DATA_REG_LEN
    pub data_reg_len: u16,
    /// TRANS_TIMEOUT, milliseconds
    pub transmit_timeout: u16,
    /// milliseconds
    pub acknowledge_timeout: u16,
    /// WIN_SIZE
    pub window: u8,
    /// TRANS_REPEAT
    pub repeats: u8,
    /// of the two bytes of FCS: R3.8
    pub order: u8,
}

impl Settings {
    /// R2.1.
    #[inline]
    pub fn in_range(&self) -> bool {
        (16..=1024).contains(&self.data_reg_len)
            && (1..=2).contains(&self.window)
            && (2..=1000).contains(&self.transmit_timeout)
            && self.acknowledge_timeout >= 1
            && self.acknowledge_timeout < self.transmit_timeout
            && (1..=4).contains(&self.repeats)
            && frame::ORDERS.contains(&self.order)
    }

    /// For what is counted: which byte goes where is for `frame` alone to know.
    #[inline]
    pub fn high_first(&self) -> bool {
        self.order == frame::HIGH_FIRST
    }

    /// Steps 1 to 4 at an end with these settings.
    #[inline]
    pub fn hear(&self, received: &[u8]) -> Heard {
        frame::hear(received, self.data_reg_len, self.order)
    }

    /// m, PCTR included. A DATA_REG_LEN below 5 is out of range but may be asked about.
    #[inline]
    pub fn packet_limit(&self) -> u16 {
        self.data_reg_len.saturating_sub(frame::OVERHEAD)
    }

    #[inline]
    pub fn slots_need(&self) -> usize {
        usize::from(self.window) * usize::from(self.packet_limit())
    }

    #[inline]
    pub fn frame_need(&self) -> usize {
        usize::from(self.data_reg_len)
    }
}

/// Holds nothing that can be derived: the last correct number, the oldest waiting
/// number and whether a packet's timer runs (exactly while the packet waits).
#[derive(Clone, Copy, Debug, Default, PartialEq, Eq)]
pub struct State {
    pub settings: Settings,
    pub started: [u32; 2],
    pub acknowledge_start: u32,
    pub length: [u16; 2],
    pub repeated: [u8; 2],
    pub next: u8,
    pub expected: u8,
    pub waiting: u8,
    pub acking: bool,
    pub nak_mark: bool,
    pub lost: bool,
}

impl State {
    #[inline]
    pub fn fresh(settings: Settings) -> State {
        State {
            settings,
            ..State::default()
        }
    }

    #[inline]
    pub fn last_correct(&self) -> u8 {
        self.expected.wrapping_add(3) & 3
    }

    #[inline]
    pub fn oldest(&self) -> u8 {
        self.next.wrapping_sub(self.waiting) & 3
    }

    /// Frame number modulo WIN_SIZE, which is 1 or 2. The last mask keeps the
    /// answer a slot number for states that are not well-formed, too.
    #[inline]
    pub fn slot(&self, number: u8) -> usize {
        usize::from(number & self.settings.window.wrapping_sub(1) & 1)
    }

    /// How many packets wait before this number, if it were to wait.
    #[inline]
    fn place(&self, number: u8) -> u8 {
        number.wrapping_sub(self.oldest()) & 3
    }

    #[inline]
    pub fn waits(&self, number: u8) -> bool {
        self.place(number) < self.waiting
    }

    #[inline]
    pub fn exhausted(&self, number: u8) -> bool {
        self.repeated[self.slot(number)] >= self.settings.repeats
    }

    /// The waiting numbers, oldest first.
    #[inline]
    pub fn waiting_numbers(&self) -> impl Iterator<Item = u8> {
        let oldest = self.oldest();
        (0..self.waiting).map(move |place| oldest.wrapping_add(place) & 3)
    }

    /// R8.1. Repeat counts are checked in both slots, lengths only where a packet waits.
    #[inline]
    pub fn well_formed(&self) -> bool {
        let limit = self.settings.packet_limit();
        let repeats = self.settings.repeats;
        self.settings.in_range()
            && self.next <= 3
            && self.expected <= 3
            && self.waiting <= self.settings.window
            && self.repeated.iter().all(|&count| count <= repeats)
            && self
                .waiting_numbers()
                .all(|number| (1..=limit).contains(&self.length[self.slot(number)]))
    }

    /// R6.2: the waiting packet that is to be served.
    #[inline]
    fn due(&self, now: u32) -> Option<u8> {
        let timeout = self.settings.transmit_timeout;
        self.waiting_numbers()
            .find(|&number| due(self.started[self.slot(number)], timeout, now))
    }

    /// Step 6, ACK k. Length, start time and repeat count of a freed packet stay.
    #[inline]
    fn free_to(&mut self, k: u8) {
        if self.waits(k) {
            self.waiting -= self.place(k) + 1;
        }
    }

    /// Step 6, NAK k: the packet to repeat, if any.
    #[inline]
    fn repeat_for(&self, k: u8) -> Option<u8> {
        (self.waits(k) && !self.exhausted(k)).then_some(k)
    }

    #[inline]
    fn deliver(&mut self, now: u32) {
        self.expected = self.expected.wrapping_add(1) & 3;
        self.nak_mark = false;
        if !self.acking {
            self.acking = true;
            self.acknowledge_start = now;
        }
    }
}

#[inline]
pub fn elapsed(start: u32, now: u32) -> u32 {
    now.wrapping_sub(start)
}

#[inline]
fn due(start: u32, timeout: u16, now: u32) -> bool {
    elapsed(start, now) >= u32::from(timeout)
}

#[derive(Clone, Copy, Debug, PartialEq, Eq)]
pub struct Outcome {
    pub state: State,
    pub answer: u8,
    pub sent: u16,
    pub delivered: u16,
    pub dropped: u8,
}

impl Outcome {
    /// Nothing sent, delivered or dropped.
    #[inline]
    fn plain(state: State, answer: u8) -> Outcome {
        Outcome::sending(state, answer, 0)
    }

    #[inline]
    fn sending(state: State, answer: u8, sent: u16) -> Outcome {
        Outcome {
            state,
            answer,
            sent,
            delivered: 0,
            dropped: 0,
        }
    }
}

/// Checks 1 and 2, which all calls but start begin with.
#[inline]
fn refusal(state: &State, slots: &[u8], frame: &[u8]) -> Option<u8> {
    if !state.well_formed() {
        return Some(answer::OUT_OF_RANGE);
    }
    let settings = &state.settings;
    if slots.len() < settings.slots_need() || frame.len() < settings.frame_need() {
        return Some(answer::SHORT_BUFFER);
    }
    None
}

/// Checks 1, 2 and 3; resynchronise alone leaves out the last.
#[inline]
fn refusal_or_lost(state: &State, slots: &[u8], frame: &[u8]) -> Option<u8> {
    refusal(state, slots, frame).or(state.lost.then_some(answer::LINK_LOST))
}

/// R3.8: whatever goes out has the order that is set.
#[inline]
fn send(state: &State, fctr: u8, packet: &[u8], frame: &mut [u8]) -> u16 {
    frame::write(frame, state.settings.order, fctr, packet)
}

/// R5.6, R5.8: made of this moment's numbers; the acknowledge timer is off, and its start time
/// stays.
#[inline]
fn send_data(state: &mut State, number: u8, packet: &[u8], frame: &mut [u8]) -> u16 {
    state.acking = false;
    let fctr = frame::data_code(number, state.last_correct());
    send(state, fctr, packet, frame)
}

/// Made anew from the slot: stored frame bytes would carry an old ACK.
#[inline]
fn repeat(state: &mut State, number: u8, slots: &[u8], frame: &mut [u8], now: u32) -> u16 {
    let slot = state.slot(number);
    let begin = slot * usize::from(state.settings.packet_limit());
    let end = begin + usize::from(state.length[slot]);
    // Check 2 and a well-formed length make the slot's part always there.
    let packet = slots.get(begin..end).unwrap_or_default();
    state.repeated[slot] = state.repeated[slot].saturating_add(1);
    state.started[slot] = now;
    send_data(state, number, packet, frame)
}

/// R4.11.
#[inline]
fn send_ack(state: &mut State, frame: &mut [u8]) -> u16 {
    state.acking = false;
    send(state, frame::ack_code(state.last_correct()), &[], frame)
}

pub fn start(settings: Settings, slots: &[u8]) -> Outcome {
    if !settings.in_range() {
        return Outcome::plain(State::default(), answer::OUT_OF_RANGE);
    }
    if slots.len() < settings.slots_need() {
        return Outcome::plain(State::default(), answer::SHORT_BUFFER);
    }
    Outcome::plain(State::fresh(settings), answer::DONE)
}

pub fn submit(
    mut state: State,
    slots: &mut [u8],
    frame: &mut [u8],
    now: u32,
    packet: &[u8],
) -> Outcome {
    if let Some(answer) = refusal_or_lost(&state, slots, frame) {
        return Outcome::plain(state, answer);
    }
    let limit = state.settings.packet_limit();
    let length = match u16::try_from(packet.len()) {
        Ok(length) if (1..=limit).contains(&length) => length,
        _ => return Outcome::plain(state, answer::PACKET_SIZE),
    };
    if state.waiting >= state.settings.window {
        return Outcome::plain(state, answer::WINDOW_FULL);
    }
    let number = state.next;
    let slot = state.slot(number);
    store(slots, slot * usize::from(limit), packet);
    state.length[slot] = length;
    state.started[slot] = now;
    state.repeated[slot] = 0;
    state.next = number.wrapping_add(1) & 3;
    state.waiting += 1;
    let sent = send_data(&mut state, number, packet, frame);
    Outcome::sending(state, answer::DONE, sent)
}

/// The rest of the slot's part and the other slot's bytes stay.
#[inline]
fn store(slots: &mut [u8], begin: usize, packet: &[u8]) {
    if let Some(part) = slots.get_mut(begin..begin + packet.len()) {
        part.copy_from_slice(packet);
    }
}

/// A delivered packet is the received frame from byte 3, as many bytes as told.
pub fn take(
    mut state: State,
    slots: &[u8],
    frame: &mut [u8],
    now: u32,
    received: &[u8],
) -> Outcome {
    if let Some(answer) = refusal_or_lost(&state, slots, frame) {
        return Outcome::plain(state, answer);
    }
    let heard = state.settings.hear(received);
    match heard {
        Heard::Size | Heard::Sum | Heard::Code | Heard::Length => {
            object(state, frame, heard.refusal())
        }
        Heard::ControlSize => Outcome::plain(state, heard.refusal()),
        Heard::Reset => Outcome {
            dropped: state.waiting,
            ..Outcome::plain(State::fresh(state.settings), answer::DONE)
        },
        Heard::Ack(k) => {
            state.free_to(k);
            Outcome::plain(state, answer::DONE)
        }
        Heard::Nak(k) => {
            let sent = match state.repeat_for(k) {
                Some(number) => repeat(&mut state, number, slots, frame, now),
                None => 0,
            };
            Outcome::sending(state, answer::DONE, sent)
        }
        Heard::Data(data) => take_data(state, slots, frame, now, data),
    }
}

/// Steps 1, 2 and 4: the NAK of R4.8, which leaves the acknowledge timer alone (R4.11).
fn object(mut state: State, frame: &mut [u8], answer: u8) -> Outcome {
    if state.nak_mark {
        return Outcome::plain(state, answer);
    }
    state.nak_mark = true;
    let sent = send(&state, frame::nak_code(state.expected), &[], frame);
    Outcome::sending(state, answer, sent)
}

/// Step 6 of a data frame: frees at once, but only tells what to repeat, because the
/// repeat is made after step 7.
#[inline]
fn acknowledged(state: &mut State, data: Data) -> Option<u8> {
    if data.nak {
        return state.repeat_for(data.k);
    }
    state.free_to(data.k);
    None
}

/// Steps 6 and 7. A repeat is the only frame sent: the ACK that 9 owes goes with it.
#[inline]
fn take_data(mut state: State, slots: &[u8], frame: &mut [u8], now: u32, data: Data) -> Outcome {
    let repeated = acknowledged(&mut state, data);
    let expected = data.number == state.expected;
    if expected {
        state.deliver(now);
    }
    let sent = match repeated {
        Some(k) => repeat(&mut state, k, slots, frame, now),
        None if expected => 0,
        None => send_ack(&mut state, frame),
    };
    let (answer, delivered) = if expected {
        (answer::DONE, data.length)
    } else {
        (answer::NOT_EXPECTED, 0)
    };
    Outcome {
        delivered,
        ..Outcome::sending(state, answer, sent)
    }
}

pub fn look(mut state: State, slots: &[u8], frame: &mut [u8], now: u32) -> Outcome {
    if let Some(answer) = refusal_or_lost(&state, slots, frame) {
        return Outcome::plain(state, answer);
    }
    let timeout = state.settings.acknowledge_timeout;
    let sent = match state.due(now) {
        Some(number) if state.exhausted(number) => {
            state.lost = true;
            return Outcome::plain(state, answer::LINK_LOST);
        }
        Some(number) => repeat(&mut state, number, slots, frame, now),
        None if state.acking && due(state.acknowledge_start, timeout, now) => {
            send_ack(&mut state, frame)
        }
        None => 0,
    };
    Outcome::sending(state, answer::DONE, sent)
}

/// Takes the millisecond because every call but start does; nothing depends on it.
pub fn acknowledge(mut state: State, slots: &[u8], frame: &mut [u8], _now: u32) -> Outcome {
    if let Some(answer) = refusal_or_lost(&state, slots, frame) {
        return Outcome::plain(state, answer);
    }
    let sent = if state.acking {
        send_ack(&mut state, frame)
    } else {
        0
    };
    Outcome::sending(state, answer::DONE, sent)
}

/// Lost or not. Takes the millisecond because every call but start does; nothing depends on it.
pub fn resynchronise(state: State, slots: &[u8], frame: &mut [u8], _now: u32) -> Outcome {
    if let Some(answer) = refusal(&state, slots, frame) {
        return Outcome::plain(state, answer);
    }
    let sent = send(&state, frame::RESET_CODE, &[], frame);
    Outcome {
        dropped: state.waiting,
        ..Outcome::sending(State::fresh(state.settings), answer::DONE, sent)
    }
}
