//! Captures for `hear`: images, sound and damaged, and what comes between.

use super::images;
use super::Random;

fn recessive(count: usize) -> String {
    "1".repeat(count)
}

/// The recessive bits before what comes next. Fewer than two make an overload; two make the third a start of frame.
fn gap(random: &mut Random) -> String {
    let longer = 4 + random.below(16);
    recessive(random.pick(&[0, 1, 2, 2, 2, 3, 3, 10, 11, longer, longer, longer]))
}

fn noise(random: &mut Random) -> String {
    let recessives = random.pick(&[20, 50, 80, 95]);
    (0..random.below(60)).map(|_| if random.percent(recessives) { '1' } else { '0' }).collect()
}

/// An error or overload flag with its echo, and a delimiter that may be too short or just long enough.
fn flag(random: &mut Random) -> String {
    let delimiter = recessive(random.pick(&[7, 8, 9, 10, 11, 12, 14]));
    format!("{}{delimiter}", "0".repeat(6 + random.below(8)))
}

fn piece(random: &mut Random) -> String {
    match random.below(24) {
        0..=7 => images::sound(random),
        8 => images::eleven_too_soon(random),
        9 | 10 => images::wrong_crc(random),
        11..=13 => images::dominant_tail(random),
        14 => images::sixth_equal(random),
        15 => images::wrong_last_stuff_bit(random),
        16 | 17 => images::disturbed(random),
        18 => noise(random),
        19 | 20 => images::newer(random),
        21 | 22 => images::recessive_fdf(random),
        _ => flag(random),
    }
}

/// How the line stands when a new listener comes: in traffic, or after some recessive bits.
fn beginning(random: &mut Random) -> String {
    let passing = images::sound(random);
    let from = random.below(passing.len());
    match random.below(3) {
        0 => format!("{}{}", &passing[from..], gap(random)),
        1 => recessive(random.pick(&[9, 10, 11, 12])),
        _ => noise(random),
    }
}

/// Bits as characters, with white space or not, or as bytes; among them bytes that are no samples.
fn written(random: &mut Random, bits: &str) -> Vec<u8> {
    let raw = random.percent(20);
    let refused = if random.percent(10) { 10 } else { 0 };
    let spaced = if random.percent(20) { 15 } else { 0 };
    let mut bytes = Vec::new();
    for bit in bits.bytes() {
        if random.percent(refused) {
            let other = random.number() as u8;
            bytes.extend(Some(other).filter(|byte| !b"\0\x01\t\n\r 01".contains(byte)));
        }
        if random.percent(spaced) {
            bytes.push(random.pick(b" \t\r\n"));
        }
        bytes.push(if raw { bit - b'0' } else { bit });
    }
    if !raw {
        bytes.push(b'\n');
    }
    bytes
}

/// A capture of at least so many samples beside those to be refused.
pub fn capture(random: &mut Random, count: usize) -> Vec<u8> {
    let mut bits = beginning(random);
    let mut bytes = written(random, &bits);
    let mut samples = bits.len();
    while samples < count {
        bits = format!("{}{}", piece(random), gap(random));
        bytes.extend(written(random, &bits));
        samples += bits.len();
    }
    bytes
}
