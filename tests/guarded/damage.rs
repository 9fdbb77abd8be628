//! Damages to the bytes of a cache.

use crate::calls::random_bytes;
use crate::drawn::Dice;
use crate::forms;
use crate::lengths::said;
use crate::oracle;

/// A number of four bytes, as far as there are bytes for it.
fn put(bytes: &mut [u8], at: usize, number: u32) {
    for (byte, value) in bytes.iter_mut().skip(at).zip(number.to_be_bytes()) {
        *byte = value;
    }
}

/// A length for what begins at a place: small, up to the end of the bytes or about so, as large as
/// can be, or one that leads back to the beginning where sums drop what is above 32 bits.
fn wild(dice: &mut Dice, at: usize, bytes: &[u8]) -> u32 {
    let all = bytes.len() as u32;
    let back = 0_u32.wrapping_sub(at as u32);
    let left = all.wrapping_sub(at as u32);
    let any = dice.range(0, u32::MAX - 1);
    let near = dice.pick(&[0, 1, 2, 4, 5, 17, 28]);
    match dice.range(0, 6) {
        0 => near,
        1 => dice.pick(&[left, all]),
        2 => left.wrapping_add(near),
        3 => left.wrapping_sub(near),
        4 => dice.pick(&[u32::MAX, u32::MAX - near, 1 << 31, (1 << 31) - 1]),
        5 => back.wrapping_add(near),
        _ => any,
    }
}

/// Clocks, locations and edges of the automaton that begins at a place, the largest most often.
pub fn counts(dice: &mut Dice, bytes: &mut [u8], at: usize) {
    let clocks = dice.pick(&[8, 8, 8, 1, 0, 9, 255]);
    let locations = dice.pick(&[64, 64, 64, 1, 0, 65, 255]);
    let edges: [u8; 2] = dice.pick(&[[1, 0], [1, 0], [1, 0], [0, 255], [0, 1], [255, 255]]);
    let values = [clocks, locations, 0, 0, edges[0], edges[1]];
    for (byte, value) in bytes.iter_mut().skip(at + 5).zip(values) {
        *byte = value;
    }
}

/// A record that runs to the very end of the bytes, or a little past it, the used length with it.
fn to_the_end(dice: &mut Dice, bytes: &mut [u8], record: usize) {
    let past = dice.pick(&[0, 0, 0, 1, 4]);
    let end = bytes.len() as u32 + past;
    let length = end.wrapping_sub(record as u32);
    put(bytes, 0, end);
    put(bytes, record, length);
    put(bytes, record + 17, length.wrapping_sub(17));
    if dice.chance(50) {
        counts(dice, bytes, record + 17);
    }
}

/// Cuts the bytes, most often near a border.
fn cut(dice: &mut Dice, bytes: &mut Vec<u8>, border: usize) {
    let near = border + dice.range(0, 40) as usize;
    let any = dice.below(bytes.len() + 1);
    let length = dice.pick(&[near, near, any]);
    bytes.truncate(length.saturating_sub(4));
    if dice.chance(60) {
        let all = bytes.len() as u32;
        put(bytes, 0, all);
    }
}

/// The automaton that begins at a place, if there is one that is accepted.
pub fn accepted(bytes: &[u8], at: usize) -> Option<&[u8]> {
    let length = said(bytes.get(at..at + 4)?);
    let automaton = bytes.get(at..at + length)?;
    oracle::refusal(automaton).ok().map(|_| automaton)
}

/// Exchanges two edges of the automaton that begins at a place, if there are two.
fn exchange(dice: &mut Dice, bytes: &mut [u8], at: usize) {
    if let Some((head, mut edges)) = accepted(bytes, at).map(forms::parts) {
        if edges.len() > 1 {
            let j = 1 + dice.below(edges.len() - 1);
            edges.swap(dice.below(j), j);
            let exchanged = forms::joined(head, &edges);
            bytes[at..at + exchanged.len()].copy_from_slice(&exchanged);
        }
    }
}

/// One damage. A border is where a record begins or the used part ends.
fn spoil_once(dice: &mut Dice, bytes: &mut Vec<u8>, border: usize) {
    if bytes.is_empty() {
        return;
    }
    let at = dice.below(bytes.len());
    match dice.range(0, 10) {
        0 => bytes[at] = dice.range(0, 255) as u8,
        1 => bytes[at] ^= 1 << dice.range(0, 7),
        2 => cut(dice, bytes, border),
        3 => {
            let number = wild(dice, 0, bytes);
            put(bytes, 0, number);
        }
        4 => {
            let number = wild(dice, border, bytes);
            put(bytes, border, number);
        }
        5 => {
            let number = wild(dice, border + 17, bytes);
            put(bytes, border + 17, number);
        }
        6 => counts(dice, bytes, border + 17),
        7 | 8 => to_the_end(dice, bytes, border),
        9 => exchange(dice, bytes, border + 17),
        _ => {
            let rest = random_bytes(dice, bytes.len() - at);
            bytes[at..].copy_from_slice(&rest);
        }
    }
}

pub fn spoil(dice: &mut Dice, bytes: &mut Vec<u8>, borders: &[usize]) {
    for _ in 0..dice.pick(&[1, 1, 1, 2, 4]) {
        let border = *dice.one(borders);
        spoil_once(dice, bytes, border);
    }
}

/// Random bytes, none too, the first of them often as a header has them.
pub fn noise(dice: &mut Dice) -> Vec<u8> {
    let length = dice.range(0, 90) as usize;
    let mut bytes = random_bytes(dice, length);
    if dice.chance(70) {
        put(&mut bytes, 0, length as u32);
        bytes.iter_mut().skip(4).take(1).for_each(|byte| *byte = 1);
    }
    if dice.chance(50) {
        let number = wild(dice, 5, &bytes);
        put(&mut bytes, 5, number);
    }
    bytes
}
