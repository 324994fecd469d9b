//! Bytes that are almost a message: lawful ones with one to three changes made
//! blindly, and noise with or without a lawful front. Nothing is known of the
//! number that refuses them, if any: paper 01's "Checks" have to say it.

use crate::random::Random;
use crate::write::Piece;

/// One to three changes.
pub fn damage(random: &mut Random, bytes: &mut Vec<u8>, pieces: &[Piece]) {
    for _ in 0..random.within(1, 3) {
        change(random, bytes, pieces);
    }
}

/// One change: a byte, the length, two bytes or two parts swapped.
pub fn change(random: &mut Random, bytes: &mut Vec<u8>, pieces: &[Piece]) {
    if bytes.is_empty() {
        bytes.push(random.word() as u8);
        return;
    }
    match random.below(8) {
        0..=2 => change_byte(random, bytes),
        3 => {
            let length = random.index(bytes.len());
            bytes.truncate(length);
        }
        4 => {
            let length = random.within(1, 8) as usize;
            bytes.extend(random.bytes(length));
        }
        5 => {
            let (one, other) = (random.index(bytes.len()), random.index(bytes.len()));
            bytes.swap(one, other);
        }
        6 => swap_pieces(random, bytes, pieces),
        _ => drop_piece(random, bytes, pieces),
    }
}

/// Another byte in one place: any, one more, one less, or one bit turned.
fn change_byte(random: &mut Random, bytes: &mut [u8]) {
    let place = random.index(bytes.len());
    let byte = &mut bytes[place];
    *byte = match random.below(5) {
        0 => random.word() as u8,
        1 => byte.wrapping_add(1),
        2 => byte.wrapping_sub(1),
        3 => 0,
        _ => *byte ^ 1 << random.below(8),
    };
}

/// Two parts change places. An earlier change may have moved them; only those
/// that still lie within the bytes are taken.
fn swap_pieces(random: &mut Random, bytes: &mut Vec<u8>, pieces: &[Piece]) {
    let (one, other) = (random.index(pieces.len()), random.index(pieces.len()));
    let front = &pieces[one.min(other)].at;
    let back = &pieces[one.max(other)].at;
    if front.end <= back.start && back.end <= bytes.len() {
        let mut swapped = Vec::with_capacity(back.end - front.start);
        swapped.extend_from_slice(&bytes[back.clone()]);
        swapped.extend_from_slice(&bytes[front.end..back.start]);
        swapped.extend_from_slice(&bytes[front.clone()]);
        bytes.splice(front.start..back.end, swapped);
    }
}

/// One part is left out.
fn drop_piece(random: &mut Random, bytes: &mut Vec<u8>, pieces: &[Piece]) {
    let at = &random.pick(pieces).at;
    if at.end <= bytes.len() {
        bytes.drain(at.clone());
    }
}

/// Random bytes; half of them with a lawful map, kind and server in front, so
/// that a reader goes on into the fields, and some with few bits set, so that
/// the maps within a ledger are short.
pub fn noise(random: &mut Random, n: u64) -> Vec<u8> {
    let length = match random.below(8) {
        0 => random.below(4),
        1..=4 => random.below(40),
        5..=6 => random.below(200),
        _ => random.below(1_300),
    };
    let mut bytes = random.bytes(length as usize);
    if random.one_in(2) {
        for byte in &mut bytes {
            *byte &= random.word() as u8 & random.word() as u8;
        }
    }
    if random.one_in(2) && bytes.len() >= 4 {
        let kind = random.within(1, 3) as u8;
        let chosen = random.word() as u8;
        bytes[0] = 0;
        // Register and ledger by chance for all; desk, round and perhaps a
        // note for requests and replies.
        bytes[1] = if kind == 3 {
            0b000_0011 | chosen & 0b011_0000
        } else {
            0b000_1111 | chosen & 0b111_0000
        };
        bytes[2] = kind;
        bytes[3] = random.below(n.clamp(1, 16)) as u8;
    }
    bytes
}
