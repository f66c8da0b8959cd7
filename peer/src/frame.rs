//! Frames: FCTR, LEN (high byte first), the packet, FCS (in the order that is set, R3.8).

use crate::answer;
use crate::checksum::checksum;

/// What a frame adds to its packet: FCTR, LEN and FCS.
pub const OVERHEAD: u16 = 5;

pub const RESET_CODE: u8 = 0xC0;

pub const LOW_FIRST: u8 = 0;
pub const HIGH_FIRST: u8 = 1;

/// R2.1: the orders of FCS.
pub const ORDERS: [u8; 2] = [LOW_FIRST, HIGH_FIRST];

/// A number that is no order means the low byte first: the link refuses it before, but a frame
/// may be heard without an end.
#[inline]
pub fn fcs(covered: &[u8], order: u8) -> [u8; 2] {
    let sum = checksum(covered);
    match order {
        HIGH_FIRST => sum.to_be_bytes(),
        _ => sum.to_le_bytes(),
    }
}

/// R3.8: what is right in one order becomes right in the other, and nothing else changes.
pub fn turn(frame: &mut [u8]) {
    if let Some(fcs) = frame.last_chunk_mut::<2>() {
        fcs.swap(0, 1);
    }
}

/// What is right with the low byte first becomes right in this order.
pub fn turn_from_low(frame: &mut [u8], order: u8) {
    if order == HIGH_FIRST {
        turn(frame);
    }
}

/// A received frame after steps 1 to 4: what they refuse it for, or what it says.
#[derive(Clone, Copy, Debug, PartialEq, Eq)]
pub enum Heard {
    Size,
    Sum,
    Code,
    ControlSize,
    Length,
    Reset,
    Ack(u8),
    Nak(u8),
    Data(Data),
}

impl Heard {
    /// R4.1 to R4.4: the number that they refuse the frame with, 0 if they let it pass.
    #[inline]
    pub fn refusal(self) -> u8 {
        match self {
            Heard::Size => answer::FRAME_SIZE,
            Heard::Sum => answer::FRAME_SUM,
            Heard::Code => answer::UNUSED_CODE,
            Heard::ControlSize => answer::CONTROL_SIZE,
            Heard::Length => answer::FRAME_LENGTH,
            Heard::Reset | Heard::Ack(_) | Heard::Nak(_) | Heard::Data(_) => answer::DONE,
        }
    }
}

/// A data frame that passed step 4; its packet is `length` bytes from byte 3.
#[derive(Clone, Copy, Debug, PartialEq, Eq)]
pub struct Data {
    pub number: u8,
    /// whether k is a NAK; this end never sends one in a data frame, but hears it
    pub nak: bool,
    pub k: u8,
    pub length: u16,
}

/// Always an ACK: a NAK is always a control frame (R4.8).
#[inline]
pub fn data_code(number: u8, last_correct: u8) -> u8 {
    (number & 3) << 2 | (last_correct & 3)
}

#[inline]
pub fn ack_code(number: u8) -> u8 {
    0x80 | (number & 3)
}

#[inline]
pub fn nak_code(number: u8) -> u8 {
    0xA0 | (number & 3)
}

#[inline]
pub fn hear(frame: &[u8], data_reg_len: u16, order: u8) -> Heard {
    // R4.1: the size decides before the checksum, which so never runs over more than D bytes.
    let Some(length) = packet_room(frame.len(), data_reg_len) else {
        return Heard::Size;
    };
    let Some((covered, end)) = frame.split_last_chunk::<2>() else {
        return Heard::Size;
    };
    let Some(&[fctr, high, low]) = covered.first_chunk::<3>() else {
        return Heard::Size;
    };
    if fcs(covered, order) != *end {
        return Heard::Sum;
    }
    let told = u16::from_be_bytes([high, low]);
    match fctr {
        0x00..=0x0F | 0x20..=0x2F => data(fctr, told, length),
        0x80..=0x83 | 0xA0..=0xA3 | RESET_CODE => control(fctr, told, length),
        _ => Heard::Code,
    }
}

/// How many packet bytes a frame of this size has room for; none where step 1 refuses the size.
fn packet_room(size: usize, data_reg_len: u16) -> Option<u16> {
    let size = u16::try_from(size).ok()?;
    if size > data_reg_len {
        return None;
    }
    size.checked_sub(OVERHEAD)
}

/// Step 3. The three kinds are told apart by FCTR's bits 6 and 5.
fn control(fctr: u8, told: u16, length: u16) -> Heard {
    if length != 0 || told != 0 {
        return Heard::ControlSize;
    }
    match fctr & 0x60 {
        0x00 => Heard::Ack(fctr & 3),
        0x20 => Heard::Nak(fctr & 3),
        _ => Heard::Reset,
    }
}

/// Step 4.
fn data(fctr: u8, told: u16, length: u16) -> Heard {
    if told == 0 || told != length {
        return Heard::Length;
    }
    Heard::Data(Data {
        number: fctr >> 2 & 3,
        nak: fctr & 0x20 != 0,
        k: fctr & 3,
        length,
    })
}

/// Writes a frame and tells its size; bytes behind it stay. A buffer too short for
/// it is left alone and 0 is told, which the link's check 2 keeps from happening.
#[inline]
pub fn write(buffer: &mut [u8], order: u8, fctr: u8, packet: &[u8]) -> u16 {
    let Ok(length) = u16::try_from(packet.len()) else {
        return 0;
    };
    let Some(size) = length.checked_add(OVERHEAD) else {
        return 0;
    };
    let Some(frame) = buffer.get_mut(..usize::from(size)) else {
        return 0;
    };
    let Some((covered, end)) = frame.split_last_chunk_mut::<2>() else {
        return 0;
    };
    let Some((head, body)) = covered.split_first_chunk_mut::<3>() else {
        return 0;
    };
    let [high, low] = length.to_be_bytes();
    *head = [fctr, high, low];
    body.copy_from_slice(packet);
    *end = fcs(covered, order);
    size
}
