//! A frame and its wire image as texts of `0` and `1` (document 01, "The wire image").

/// The generator of the CRC with its top term: 4599 hex and the 15th power.
const GENERATOR: u128 = 0xC599;

/// A frame as it is written down, whether or not a writer takes it.
pub struct Frame {
    pub extended: bool,
    pub ident: u32,
    pub remote: bool,
    pub code: u32,
    pub data: Vec<u8>,
}

/// What a whole plain text says. `noted` is 0 for a base frame; for an extended one, 4 for a dominant SRR and 1 for a
/// recessive r0.
pub struct Read {
    pub frame: Frame,
    pub noted: u32,
    pub length: usize,
    pub crc_is_right: bool,
}

/// The remainder of a text, highest bit first, when it is divided by the generator as a polynomial over two.
/// A plain text has at most 39 + 64 + 15 bits, so one number holds it.
fn remainder(text: &str) -> u128 {
    let mut rest = u128::from_str_radix(text, 2).expect("a text of 0 and 1, at most 128 long");
    for shift in (0..text.len().saturating_sub(15)).rev() {
        if rest >> (shift + 15) & 1 == 1 {
            rest ^= GENERATOR << shift;
        }
    }
    rest
}

/// A text with its CRC behind it.
pub fn with_crc(covered: &str) -> String {
    let crc = remainder(&format!("{covered}{:015b}", 0));
    format!("{covered}{crc:015b}")
}

/// Every bit from start of frame to the last CRC bit, with no stuff bit.
pub fn plain(frame: &Frame, noted: u32) -> String {
    let Frame { ident, code, .. } = frame;
    let rtr = u32::from(frame.remote);
    let (srr, r0) = (1 - (noted >> 2 & 1), noted & 1);
    let (upper, lower) = (ident >> 18, ident & 0x3FFFF);
    let address = match frame.extended {
        false => format!("0{ident:011b}{rtr}00"),
        true => format!("0{upper:011b}{srr}1{lower:018b}{rtr}0{r0}"),
    };
    let data: String = frame.data.iter().map(|byte| format!("{byte:08b}")).collect();
    with_crc(&format!("{address}{code:04b}{data}"))
}

/// Where FDF stands in a plain text that reaches it: r0 of a base frame, r1 of an extended one.
pub fn fdf_at(text: &str) -> Option<usize> {
    let at = if text.get(13..14)? == "1" { 33 } else { 14 };
    (at < text.len()).then_some(at)
}

/// Reads the frame that a text begins with; none where the text ends too soon.
pub fn read(text: &str) -> Option<Read> {
    let field = |from: usize, width: usize| u32::from_str_radix(text.get(from..from + width)?, 2).ok();
    let extended = field(13, 1)? == 1;
    let (rtr, code_at) = if extended { (32, 35) } else { (12, 15) };
    let upper = field(1, 11)?;
    let ident = if extended { upper << 18 | field(14, 18)? } else { upper };
    let remote = field(rtr, 1)? == 1;
    let code = field(code_at, 4)?;
    let count = if remote { 0 } else { code.min(8) as usize };
    let data_at = code_at + 4;
    let data = (0..count).map(|k| Some(field(data_at + 8 * k, 8)? as u8)).collect::<Option<_>>()?;
    let noted = if extended { 4 * (1 - field(12, 1)?) + field(34, 1)? } else { 0 };
    let length = data_at + 8 * count + 15;
    // A text that ends in its own CRC is a multiple of the generator, and no other is.
    let crc_is_right = remainder(text.get(..length)?) == 0;
    let frame = Frame { extended, ident, remote, code, data };
    Some(Read { frame, noted, length, crc_is_right })
}

/// Whether the bit that follows this text is a stuff bit: the five before it are equal, whatever they are there for.
pub fn stuff_bit_follows(text: &str) -> bool {
    text.ends_with("00000") || text.ends_with("11111")
}

/// The text with its stuff bits.
pub fn stuff(text: &str) -> String {
    let mut stuffed = String::new();
    for bit in text.chars() {
        stuffed.push(bit);
        if stuff_bit_follows(&stuffed) {
            stuffed.push(if bit == '0' { '1' } else { '0' });
        }
    }
    stuffed
}

/// The image of a plain text: stuffed, then CRC delimiter, slot, acknowledge delimiter and end of frame.
pub fn image(plain: &str, slot: char) -> String {
    format!("{}1{slot}1{}", stuff(plain), "1111111")
}

#[cfg(test)]
mod tests {
    use super::*;

    #[test]
    fn stuffing_alone_is_table_10() {
        assert_eq!(stuff("01011111010"), "010111110010");
        assert_eq!(stuff("10100000101"), "101000001101");
        assert_eq!(stuff("01011111000010"), "0101111100000110");
        assert_eq!(stuff("10100000111101"), "1010000011111001");
    }

    #[test]
    fn crc_of_identifier_0_and_code_0() {
        let crc = |remote| {
            let frame = Frame { extended: false, ident: 0, remote, code: 0, data: vec![] };
            u32::from_str_radix(&plain(&frame, 0)[19..], 2)
        };
        assert_eq!(crc(false), Ok(0));
        assert_eq!(crc(true), Ok(0x73C5));
    }
}
