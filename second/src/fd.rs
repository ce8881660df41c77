//! The image of an FD frame as a text of `0` and `1` (001, 6.6.11 and 6.6.13). No FD frame is read or written at the desk;
//! captures have them among the others.

use crate::wire;

/// An FD frame. There are no remote ones.
pub struct Frame {
    pub extended: bool,
    pub ident: u32,
    /// Bit rate switch and error state indicator.
    pub brs: bool,
    pub esi: bool,
    pub code: u32,
    pub data: Vec<u8>,
}

/// How many bytes a length code stands for (001 Table 5).
pub fn count(code: u32) -> usize {
    [0, 1, 2, 3, 4, 5, 6, 7, 8, 12, 16, 20, 24, 32, 48, 64][code as usize]
}

/// The CRC of a text: so many bits, with a generator without its top term, from a register whose highest bit alone is 1.
fn crc(text: &str, width: u32, generator: u32) -> u32 {
    text.chars().fold(1 << (width - 1), |register: u32, bit| {
        let out = register >> (width - 1) & 1 != u32::from(bit == '1');
        (register << 1 & ((1 << width) - 1)) ^ if out { generator } else { 0 }
    })
}

/// The stuff count: the number of stuff bits modulo 8 in Gray code, and even parity (001 Table 8).
fn stuff_count(stuff_bits: usize) -> String {
    let gray = stuff_bits % 8 ^ stuff_bits % 8 >> 1;
    format!("{gray:03b}{}", gray.count_ones() % 2)
}

/// From start of frame to the last data bit, stuffed. Where five equal bits end it, no stuff bit follows: a fixed one does.
fn stuffed(plain: &str) -> String {
    let mut text = wire::stuff(plain);
    if wire::stuff_bit_follows(&text[..text.len() - 1]) {
        text.pop();
    }
    text
}

/// Stuff count and CRC behind a stuffed text, with a fixed stuff bit before the first bit and after each fourth.
fn closed(mut text: String, check: &str) -> String {
    for (at, bit) in check.char_indices() {
        if at % 4 == 0 {
            text.push(if text.ends_with('0') { '1' } else { '0' });
        }
        text.push(bit);
    }
    text
}

/// The whole image, acknowledged or not.
pub fn image(frame: &Frame, slot: char) -> String {
    let Frame { ident, code, .. } = frame;
    let (upper, lower) = (ident >> 18, ident & 0x3FFFF);
    let (brs, esi) = (u32::from(frame.brs), u32::from(frame.esi));
    let address = match frame.extended {
        false => format!("0{ident:011b}00"),
        true => format!("0{upper:011b}11{lower:018b}0"),
    };
    let data: String = frame.data.iter().map(|byte| format!("{byte:08b}")).collect();
    let plain = format!("{address}10{brs}{esi}{code:04b}{data}");
    let text = stuffed(&plain);
    let count = stuff_count(text.len() - plain.len());
    let covered = format!("{text}{count}");
    let check = match frame.data.len() {
        0..=16 => format!("{count}{:017b}", crc(&covered, 17, 0x1685B)),
        _ => format!("{count}{:021b}", crc(&covered, 21, 0x102899)),
    };
    format!("{}1{slot}1{}", closed(text, &check), "1111111")
}

#[cfg(test)]
mod tests {
    use super::*;

    #[test]
    fn stuff_count_is_table_8() {
        let coded: Vec<String> = (0..9).map(stuff_count).collect();
        assert_eq!(coded, ["0000", "0011", "0110", "0101", "1100", "1111", "1010", "1001", "0000"]);
    }

    #[test]
    fn whole_images() {
        let base = Frame { extended: false, ident: 0x123, brs: false, esi: false, code: 1, data: vec![0x11] };
        assert_eq!(image(&base, '0'), "00010010001100100000101000100010001100000101101011100111001011111111");
        let extended =
            Frame { extended: true, ident: 0x1ABCDEF0, brs: true, esi: false, code: 2, data: vec![0x00, 0x1F] };
        assert_eq!(
            image(&extended, '1'),
            "01101010111110100110111101111000001101000100000100000100111110110010001001101110101110111111111111"
        );
    }

    #[test]
    fn five_equal_bits_at_the_end_are_left_to_the_fixed_bit() {
        assert_eq!(stuffed("0100000"), "0100000");
        assert_eq!(stuffed("01000000"), "010000010");
    }

    #[test]
    fn a_text_behind_its_crc_leaves_no_remainder() {
        for (width, generator) in [(17, 0x1685B), (21, 0x102899)] {
            let text = "0001001000110010";
            let sum = crc(text, width, generator);
            assert_ne!(sum, 0);
            assert_eq!(crc(&format!("{text}{sum:0width$b}", width = width as usize), width, generator), 0);
        }
    }

    #[test]
    fn fixed_stuff_bits_are_six_and_seven() {
        let longer = |code| {
            let data = vec![0x55; count(code)];
            let frame = Frame { extended: false, ident: 0x555, brs: true, esi: false, code, data };
            // start of frame to the code, data, stuff count, CRC and the ten bits behind; nothing in it needs a stuff bit
            image(&frame, '1').len() - (1 + 11 + 2 + 4 + 4 + 8 * count(code) + 4 + if code < 11 { 17 } else { 21 } + 10)
        };
        assert_eq!((longer(2), longer(15)), (6, 7));
    }
}
