//! Images for captures, sound and damaged in every way that document 01's table names.

use super::frames::{fd_frame, frame};
use super::Random;
use crate::{fd, wire};

/// A plain text of any code, with any noted bits that its kind has, whose stuffed part ends so.
fn text_that_ends(random: &mut Random, end: &str) -> String {
    loop {
        let frame = frame(random);
        let noted = if frame.extended { random.pick(&[1, 4, 5]) } else { 0 };
        let text = wire::plain(&frame, if random.percent(60) { 0 } else { noted });
        if wire::image(&text, '1').ends_with(&format!("{end}1111111111")) {
            return text;
        }
    }
}

/// Every other text is chosen by its end: four recessive or dominant bits, or a stuff bit behind the last CRC bit.
fn text(random: &mut Random) -> String {
    let end = random.pick(&["", "", "", "", "1111", "0000", "111110", "000001"]);
    text_that_ends(random, end)
}

fn bit(random: &mut Random) -> char {
    random.pick(&['0', '1'])
}

/// The text with another bit at this place.
fn flip(text: &mut String, at: usize) {
    let other = if text[at..].starts_with('0') { "1" } else { "0" };
    text.replace_range(at..at + 1, other);
}

/// Acknowledged or not.
pub fn sound(random: &mut Random) -> String {
    wire::image(&text(random), bit(random))
}

/// An FD frame, acknowledged or not.
pub fn newer(random: &mut Random) -> String {
    fd::image(&fd_frame(random), bit(random))
}

/// An image but for its FDF, which is recessive, also in the CRC: a frame by the older documents.
pub fn recessive_fdf(random: &mut Random) -> String {
    let mut text = text(random);
    let at = wire::fdf_at(&text).expect("the text is whole");
    flip(&mut text, at);
    wire::image(&wire::with_crc(&text[..text.len() - 15]), bit(random))
}

/// An image whose CRC is wrong, though it is stuffed as it should be.
pub fn wrong_crc(random: &mut Random) -> String {
    let mut text = text(random);
    let at = 20 + random.below(text.len() - 20);
    flip(&mut text, at);
    wire::image(&text, bit(random))
}

/// The image and three bits of intermission, with a dominant bit so many places behind the CRC delimiter.
fn with_dominant(image: &str, behind: usize) -> String {
    let at = image.len() - 10 + behind;
    let mut line = format!("{image}111");
    line.replace_range(at..at + 1, "0");
    line
}

/// A dominant bit somewhere from the CRC delimiter on, whether or not the CRC is right.
pub fn dominant_tail(random: &mut Random) -> String {
    let image = if random.percent(70) { sound(random) } else { wrong_crc(random) };
    with_dominant(&image, random.below(13))
}

/// Eleven recessive bits inside a frame, and then a dominant one: the CRC ends in four and nobody acknowledges.
pub fn eleven_too_soon(random: &mut Random) -> String {
    let image = wire::image(&text_that_ends(random, "1111"), '1');
    with_dominant(&image, 7 + random.below(5))
}

/// Six or more equal bits over some place of the image.
pub fn sixth_equal(random: &mut Random) -> String {
    let mut image = sound(random);
    let at = random.below(image.len() - 16);
    image.replace_range(at..at + 6, random.pick(&["000000", "111111"]));
    image
}

/// The stuff bit behind the last CRC bit wrong: a stuff error there, where a form error is easily given instead.
pub fn wrong_last_stuff_bit(random: &mut Random) -> String {
    loop {
        let mut image = sound(random);
        let at = image.len() - 11;
        if wire::stuff_bit_follows(&image[..at]) {
            flip(&mut image, at);
            return image;
        }
    }
}

/// Bits flipped, inserted, dropped, or all cut off from some place on.
pub fn disturbed(random: &mut Random) -> String {
    let mut image = sound(random);
    for _ in 0..random.pick(&[1, 1, 1, 2, 3]) {
        if image.is_empty() {
            break;
        }
        let at = random.below(image.len());
        match random.below(7) {
            0..=2 => flip(&mut image, at),
            3 | 4 => image.insert(at, bit(random)),
            5 => drop(image.remove(at)),
            _ => image.truncate(at.max(1)),
        }
    }
    image
}
