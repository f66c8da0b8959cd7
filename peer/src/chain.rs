//! Chaining: messages (APDUs) cut into packets and joined again: R7.

use crate::answer;

pub const MESSAGE_LIMIT: u16 = 4096;

const ROOM_NEED: usize = MESSAGE_LIMIT as usize;

const CHANNEL_BITS: u8 = 0xF0;
const SECURED_BIT: u8 = 0x08;
const CHAIN_BITS: u8 = 0x07;

const SINGLE: u8 = 0b000;
const FIRST: u8 = 0b001;
const MIDDLE: u8 = 0b010;
const LAST: u8 = 0b100;

/// R7.6: told as a number with answer 10.
const FAULT_PACKET: u8 = 0b111;

fn limit_in_range(limit: u16) -> bool {
    (11..=1019).contains(&limit)
}

#[derive(Clone, Copy, Debug, PartialEq, Eq)]
pub struct Piece {
    pub answer: u8,
    pub length: u16,
    pub count: u16,
}

impl Piece {
    fn refused(answer: u8) -> Piece {
        Piece {
            answer,
            length: 0,
            count: 0,
        }
    }
}

/// Packet number `index` of a message, counted from 0, for the packet limit m.
pub fn cut(limit: u16, buffer: &mut [u8], index: u32, message: &[u8]) -> Piece {
    if !limit_in_range(limit) {
        return Piece::refused(answer::OUT_OF_RANGE);
    }
    if buffer.len() < usize::from(limit) {
        return Piece::refused(answer::SHORT_BUFFER);
    }
    let size = match u16::try_from(message.len()) {
        Ok(size) if (1..=MESSAGE_LIMIT).contains(&size) => size,
        _ => return Piece::refused(answer::MESSAGE_SIZE),
    };
    let share = limit - 1;
    let count = size.div_ceil(share);
    let index = match u16::try_from(index) {
        Ok(index) if index < count => index,
        _ => return Piece::refused(answer::NO_SUCH_PACKET),
    };
    let part = message.chunks(usize::from(share)).nth(usize::from(index));
    let length = write_packet(buffer, chain_of(index, count), part.unwrap_or_default());
    Piece {
        answer: answer::DONE,
        length,
        count,
    }
}

fn chain_of(index: u16, count: u16) -> u8 {
    match index {
        0 if count == 1 => SINGLE,
        0 => FIRST,
        _ if index + 1 == count => LAST,
        _ => MIDDLE,
    }
}

/// Channel 0 and not secured, so PCTR is CHAIN alone. Bytes behind the packet stay.
fn write_packet(buffer: &mut [u8], pctr: u8, part: &[u8]) -> u16 {
    let Some((first, rest)) = buffer.split_first_mut() else {
        return 0;
    };
    let Some(body) = rest.get_mut(..part.len()) else {
        return 0;
    };
    *first = pctr;
    body.copy_from_slice(part);
    u16::try_from(part.len() + 1).unwrap_or_default()
}

/// The default is fresh: no chain open, nothing joined.
#[derive(Clone, Copy, Debug, Default, PartialEq, Eq)]
pub struct Joining {
    pub joined: u16,
    pub open: bool,
}

#[derive(Clone, Copy, Debug, PartialEq, Eq)]
pub struct Joined {
    pub joining: Joining,
    pub answer: u8,
    /// of the message that this packet completed
    pub length: u16,
    /// the packet for the caller to submit, 0 for none
    pub fault: u8,
}

impl Joined {
    fn plain(joining: Joining, answer: u8) -> Joined {
        Joined {
            joining,
            answer,
            length: 0,
            fault: 0,
        }
    }

    /// Answers 10, 14 and 15; only 10 tells the packet 07.
    fn dropped(answer: u8) -> Joined {
        let fault = if answer == answer::CHAIN_FAULT {
            FAULT_PACKET
        } else {
            0
        };
        Joined {
            fault,
            ..Joined::plain(Joining::default(), answer)
        }
    }
}

pub fn join(joining: Joining, room: &mut [u8], limit: u16, packet: &[u8]) -> Joined {
    if !limit_in_range(limit) || joining.joined > MESSAGE_LIMIT {
        return Joined::plain(joining, answer::OUT_OF_RANGE);
    }
    if room.len() < ROOM_NEED {
        return Joined::plain(joining, answer::SHORT_BUFFER);
    }
    let (pctr, part) = match packet.split_first() {
        Some((&pctr, part)) if packet.len() <= usize::from(limit) => (pctr, part),
        _ => return Joined::plain(joining, answer::PACKET_SIZE),
    };
    if pctr & CHANNEL_BITS != 0 {
        return Joined::plain(joining, answer::CHANNEL);
    }
    let chain = pctr & CHAIN_BITS;
    if chain == FAULT_PACKET && part.is_empty() {
        return Joined::dropped(answer::FAULT_TOLD);
    }
    if chain_fault(joining.open, chain, part, limit) {
        return Joined::dropped(answer::CHAIN_FAULT);
    }
    if pctr & SECURED_BIT != 0 && matches!(chain, SINGLE | FIRST) {
        return Joined::plain(joining, answer::SECURED);
    }
    add(joining, room, chain, part)
}

/// Every cause of answer 10; they all leave the same, so their order is free.
fn chain_fault(open: bool, chain: u8, part: &[u8], limit: u16) -> bool {
    let full = part.len() + 1 == usize::from(limit);
    match chain {
        SINGLE => open || part.is_empty(),
        FIRST => open || !full,
        MIDDLE => !open || !full,
        LAST => !open || part.is_empty(),
        _ => true,
    }
}

/// What is joined so far counts only for 010 and 100: with no chain open it may be any number.
fn add(joining: Joining, room: &mut [u8], chain: u8, part: &[u8]) -> Joined {
    let begin = match chain {
        SINGLE | FIRST => 0,
        _ => usize::from(joining.joined),
    };
    let end = begin + part.len();
    let total = match u16::try_from(end) {
        Ok(total) if total <= MESSAGE_LIMIT => total,
        _ => return Joined::dropped(answer::TOO_LONG),
    };
    if let Some(place) = room.get_mut(begin..end) {
        place.copy_from_slice(part);
    }
    if matches!(chain, SINGLE | LAST) {
        return Joined {
            length: total,
            ..Joined::plain(Joining::default(), answer::DONE)
        };
    }
    let open = Joining {
        joined: total,
        open: true,
    };
    Joined::plain(open, answer::DONE)
}
