//! Records that nobody asked for: random bytes, and records that are nearly right.

use crate::generate::Rng;

/// Half are eight random bytes. The others name a step, or an action that there may be, a participant that there may be and a small
/// token; one in four of those has one of its bytes replaced.
pub(crate) fn record(rng: &mut Rng) -> [u8; 8] {
    if rng.chance(500) {
        return rng.next().to_le_bytes();
    }
    let action = if rng.chance(600) { 0 } else { rng.below(11) as u8 };
    let participant = if action == 1 { 0 } else { rng.below(6) as u8 };
    let token = if action == 7 { rng.below(256) as u8 } else { 0 };
    let mut bytes = [action, participant, 0, 0, token, 0, 0, 0];
    if rng.chance(250) {
        bytes[rng.below(8)] = rng.next() as u8;
    }
    bytes
}
