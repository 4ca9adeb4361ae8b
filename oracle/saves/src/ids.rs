//! The table of ids of FORMAT.md, for making saves.

pub const EQUAL: u16 = 0x0001;
pub const OPEN: u16 = 0x0003;
pub const CLOSE: u16 = 0x0004;
pub const I32: u16 = 0x000c;
pub const F32: u16 = 0x000d;
pub const BOOL: u16 = 0x000e;
pub const QUOTED: u16 = 0x000f;
pub const U32: u16 = 0x0014;
pub const UNQUOTED: u16 = 0x0017;
pub const RGB: u16 = 0x0243;
pub const COMPACT: std::ops::RangeInclusive<u16> = 0x0d47..=0x0d55;
/// All that a text follows.
pub const TEXTS: [u16; 3] = [QUOTED, UNQUOTED, 0x0d5e];

pub const RESERVED: [u16; 42] = [
    0x0001, 0x0003, 0x0004, 0x0014, 0x000c, 0x000d, 0x029c, 0x0317, 0x0167, 0x000e, 0x000f, 0x0017, 0x0d5e, 0x0d42,
    0x0243, 0x0d40, 0x0d43, 0x0d5a, 0x0d3e, 0x0d44, 0x0d5b, 0x0d41, 0x0d45, 0x0d5c, 0x0d3f, 0x0d46, 0x0d5d, 0x0d47,
    0x0d48, 0x0d49, 0x0d4a, 0x0d4b, 0x0d4c, 0x0d4d, 0x0d4e, 0x0d4f, 0x0d50, 0x0d51, 0x0d52, 0x0d53, 0x0d54, 0x0d55,
];

#[derive(Clone, Copy, Debug, PartialEq, Eq)]
pub enum Payload {
    Bytes(usize),
    Text,
    Colour,
}

pub fn payload(id: u16) -> Payload {
    match id {
        0x0014 | 0x000c | 0x000d => Payload::Bytes(4),
        0x029c | 0x0317 | 0x0167 => Payload::Bytes(8),
        0x000e => Payload::Bytes(1),
        0x000f | 0x0017 | 0x0d5e => Payload::Text,
        0x0243 => Payload::Colour,
        0x0d40 | 0x0d43 | 0x0d5a => Payload::Bytes(1),
        0x0d3e | 0x0d44 | 0x0d5b => Payload::Bytes(2),
        0x0d41 | 0x0d45 | 0x0d5c => Payload::Bytes(3),
        0x0d3f | 0x0d46 | 0x0d5d => Payload::Bytes(4),
        0x0d47..=0x0d4e => Payload::Bytes(usize::from(id - 0x0d47)),
        0x0d4f..=0x0d55 => Payload::Bytes(usize::from(id - 0x0d4e)),
        _ => Payload::Bytes(0),
    }
}
