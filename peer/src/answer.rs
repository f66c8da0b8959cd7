//! One name for each number returned: R8.

pub const DONE: u8 = 0;
pub const OUT_OF_RANGE: u8 = 1;
pub const SHORT_BUFFER: u8 = 2;
pub const LINK_LOST: u8 = 3;
pub const PACKET_SIZE: u8 = 4;
pub const WINDOW_FULL: u8 = 5;
pub const FRAME_SUM: u8 = 6;
pub const UNUSED_CODE: u8 = 7;
pub const CONTROL_SIZE: u8 = 8;
pub const NOT_EXPECTED: u8 = 9;
pub const CHAIN_FAULT: u8 = 10;
pub const CHANNEL: u8 = 11;
pub const SECURED: u8 = 12;
pub const MESSAGE_SIZE: u8 = 13;
pub const TOO_LONG: u8 = 14;
pub const FAULT_TOLD: u8 = 15;
pub const NO_SUCH_PACKET: u8 = 16;
pub const FRAME_SIZE: u8 = 17;
pub const FRAME_LENGTH: u8 = 18;
