//! The buffers a script lends: what they are filled with before a call writes to them.

/// Bytes of buffers that go on from call to call.
pub(super) const KEPT_FILL: u8 = 0xEE;

/// Bytes of buffers made anew for each call.
pub(super) const CALL_FILL: u8 = 0xDD;

pub(super) fn refill(buffer: &mut Vec<u8>, size: u16, fill: u8) {
    buffer.clear();
    buffer.resize(usize::from(size), fill);
}
