//! The fields of a line, read and written: words, numbers and bytes.

use std::mem;

const BYTES_LIMIT: usize = 8192;

/// Fields are apart by exactly one space, so a second, leading or trailing space
/// makes an empty field, which is neither a word nor a number nor bytes.
pub(crate) struct Fields<'l, 'a> {
    rest: Option<&'l [u8]>,
    /// what no byte field has taken yet
    scratch: &'a mut [u8],
}

impl<'l, 'a> Fields<'l, 'a> {
    /// The scratch buffer will hold the line's byte fields. The caller keeps it from line to
    /// line, so that a line needs no allocation of its own.
    pub(crate) fn of(line: &'l [u8], scratch: &'a mut Vec<u8>) -> Fields<'l, 'a> {
        // A byte takes two digits, so this is enough for any number of byte fields.
        let enough = line.len() / 2;
        if scratch.len() < enough {
            scratch.resize(enough, 0);
        }
        Fields {
            rest: Some(line),
            scratch,
        }
    }

    pub(crate) fn next(&mut self) -> Option<&'l [u8]> {
        let rest = self.rest?;
        let Some(space) = rest.iter().position(|&byte| byte == b' ') else {
            self.rest = None;
            return Some(rest);
        };
        self.rest = rest.get(space + 1..);
        rest.get(..space)
    }

    pub(crate) fn end(&self) -> Option<()> {
        self.rest.is_none().then_some(())
    }

    fn number(&mut self, most: u32) -> Option<u32> {
        let digits = self.next()?;
        if digits.is_empty() {
            return None;
        }
        let mut value: u64 = 0;
        for &digit in digits {
            if !digit.is_ascii_digit() {
                return None;
            }
            let digit = u64::from(digit - b'0');
            value = value.saturating_mul(10).saturating_add(digit);
        }
        u32::try_from(value).ok().filter(|&value| value <= most)
    }

    pub(super) fn u32(&mut self) -> Option<u32> {
        self.number(u32::MAX)
    }

    pub(super) fn u16_to(&mut self, most: u32) -> Option<u16> {
        self.number(most)?.try_into().ok()
    }

    pub(crate) fn u16(&mut self) -> Option<u16> {
        self.u16_to(u32::from(u16::MAX))
    }

    pub(super) fn u8(&mut self) -> Option<u8> {
        self.number(u32::from(u8::MAX))?.try_into().ok()
    }

    /// A last field that may be left out, where 0 is meant.
    pub(crate) fn u8_or_0(&mut self) -> Option<u8> {
        match self.rest {
            Some(_) => self.u8(),
            None => Some(0),
        }
    }

    pub(super) fn mark(&mut self) -> Option<bool> {
        Some(self.number(1)? == 1)
    }

    pub(crate) fn bytes(&mut self) -> Option<&'a [u8]> {
        let digits = self.next()?;
        if digits == b"-" {
            return Some(&[]);
        }
        if digits.is_empty() || digits.len() % 2 != 0 || digits.len() / 2 > BYTES_LIMIT {
            return None;
        }
        let scratch = mem::take(&mut self.scratch);
        let (bytes, rest) = scratch.split_at_mut_checked(digits.len() / 2)?;
        self.scratch = rest;
        for (byte, pair) in bytes.iter_mut().zip(digits.chunks_exact(2)) {
            let &[high, low] = pair else {
                return None;
            };
            let [high, low] = [NIBBLES[usize::from(high)], NIBBLES[usize::from(low)]];
            if high | low > 0x0F {
                return None;
            }
            *byte = high << 4 | low;
        }
        Some(bytes)
    }
}

const NOT_HEX: u8 = 0xFF;

static NIBBLES: [u8; 256] = {
    let mut nibbles = [NOT_HEX; 256];
    let mut value = 0;
    while value < 16 {
        nibbles[b"0123456789abcdef"[value] as usize] = value as u8;
        nibbles[b"0123456789ABCDEF"[value] as usize] = value as u8;
        value += 1;
    }
    nibbles
};

static HEX: [[u8; 2]; 256] = {
    let digits = b"0123456789ABCDEF";
    let mut pairs = [[0; 2]; 256];
    let mut byte = 0;
    while byte < 256 {
        pairs[byte] = [digits[byte >> 4], digits[byte & 15]];
        byte += 1;
    }
    pairs
};

/// Numbers apart by one space.
pub(crate) fn numbers(values: &[u32], out: &mut Vec<u8>) {
    for (place, &value) in values.iter().enumerate() {
        if place > 0 {
            out.push(b' ');
        }
        number(value, out);
    }
}

/// Numbers behind the fields written so far.
pub(crate) fn then_numbers(values: &[u32], out: &mut Vec<u8>) {
    out.push(b' ');
    numbers(values, out);
}

fn number(mut value: u32, out: &mut Vec<u8>) {
    // Most fields are one digit; writing them directly halves the time of a replay.
    if value < 10 {
        out.push(b'0' + value as u8);
        return;
    }
    let mut digits = [0; 10];
    let mut used = 0;
    for digit in digits.iter_mut().rev() {
        *digit = b'0' + (value % 10) as u8;
        value /= 10;
        used += 1;
        if value == 0 {
            break;
        }
    }
    out.extend_from_slice(&digits[digits.len() - used..]);
}

/// Upper case, `-` for none.
pub(crate) fn hex(bytes: &[u8], out: &mut Vec<u8>) {
    if bytes.is_empty() {
        out.push(b'-');
        return;
    }
    out.reserve(bytes.len() * 2);
    for &byte in bytes {
        out.extend_from_slice(&HEX[usize::from(byte)]);
    }
}

/// Bytes behind the fields written so far.
pub(crate) fn then_hex(bytes: &[u8], out: &mut Vec<u8>) {
    out.push(b' ');
    hex(bytes, out);
}
