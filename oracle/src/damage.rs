//! Damage to bytes that were in order.
use crate::grammar::{self, noise};
use crate::rng::Rng;

/// Damages the bytes in one to three places. `other` is a payload to take a part from.
pub fn damage(mut bytes: Vec<u8>, other: &[u8], rng: &mut Rng) -> Vec<u8> {
    for _ in 0..1 + rng.below(3) {
        once(&mut bytes, other, rng);
    }
    bytes
}

fn once(bytes: &mut Vec<u8>, other: &[u8], rng: &mut Rng) {
    let at = rng.below(bytes.len() + 1);
    let end = (at + rng.below(4)).min(bytes.len());
    match rng.below(9) {
        0 => bytes.truncate(at),
        1 => {
            if let Some(byte) = bytes.get_mut(at) {
                *byte ^= 1 << rng.below(8);
            }
        }
        2 => {
            if let Some(byte) = bytes.get_mut(at) {
                *byte = rng.pick(&[0, 1, 0x7f, 0x80, 0xff]);
            }
        }
        3 => drop(bytes.splice(at..at, grammar::varint(rng))),
        4 => {
            let len = 1 + rng.below(3);
            drop(bytes.splice(at..at, noise(rng, len)));
        }
        5 => drop(bytes.drain(at..end)),
        6 => drop(bytes.splice(at..end, grammar::varint(rng))),
        7 => {
            let from = rng.below(other.len() + 1);
            drop(bytes.splice(at.., other[from..].iter().copied()));
        }
        _ => {
            let len = 1 + rng.below(4);
            bytes.extend(noise(rng, len));
        }
    }
}
