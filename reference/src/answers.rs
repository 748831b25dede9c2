//! The answers by name: R68 to R80, 14 of request P4, 15 of P6, 16 of P10, 17 of P11, 18 to 20 of P14.

pub const DONE: u8 = 0;
pub const POOL_LENGTH: u8 = 1;
pub const NOT_WELL_FORMED: u8 = 2;
pub const BAD_BATCH: u8 = 3;
pub const REPLY_SPACE: u8 = 4;
pub const BAD_ORDER: u8 = 5;
pub const BAD_ENTRY: u8 = 6;
pub const BAD_MARK: u8 = 7;
pub const FIRST_ABOVE_LAST: u8 = 8;
pub const NO_BUDGET: u8 = 9;
pub const ABSENT: u8 = 10;
pub const TOO_FEW_NODES: u8 = 11;
pub const ENDED: u8 = 12;
pub const PAUSED: u8 = 13;
pub const UNALIGNED: u8 = 14;
pub const COVERED: u8 = 15;
pub const BAD_KEY: u8 = 16;
pub const BAD_SCRIPT: u8 = 17;
pub const BAD_GATE: u8 = 18;
pub const NO_TOTAL: u8 = 19;
pub const PART_ABOVE_TOTAL: u8 = 20;
