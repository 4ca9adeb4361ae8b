//! Saves that have a normal form.

use crate::{Payload, payload};

/// Takes the fourth byte of each lookup, so that three are enough for it. Every token must read.
pub fn narrow(bytes: &mut [u8]) {
    let mut at = 0;
    while at < bytes.len() {
        let id = u16::from_le_bytes([bytes[at], bytes[at + 1]]);
        at += 2;
        if matches!(id, 0x0d3f | 0x0d46 | 0x0d5d) {
            bytes[at + 3] = 0;
        }
        at += match payload(id) {
            Payload::Bytes(count) => count,
            Payload::Text => 2 + usize::from(u16::from_le_bytes([bytes[at], bytes[at + 1]])),
            // What follows the id are tokens too.
            Payload::Colour => 0,
        };
    }
}
