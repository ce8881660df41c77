//! Frames, and lines for `put`: to be written, to be refused, and lines that do not read.

use super::Random;
use crate::fd;
use crate::notation;
use crate::wire::Frame;

/// Bytes that make long runs, beside any others.
fn byte(random: &mut Random) -> u8 {
    match random.below(3) {
        0 => random.pick(&[0x00, 0xFF, 0x55, 0xAA, 0x0F, 0xF0, 0x1F, 0xF8, 0x07, 0xC1, 0x3E, 0x83, 0x7C]),
        _ => random.number() as u8,
    }
}

fn ident(random: &mut Random, extended: bool) -> u32 {
    let highest = if extended { 0x1FFF_FFFF } else { 0x7FF };
    match random.below(8) {
        0 => 0,
        1 => highest,
        2 => (random.number() & random.number() & random.number()) as u32 & highest,
        3 => (random.number() | random.number() | random.number()) as u32 & highest,
        _ => random.number() as u32 & highest,
    }
}

/// A frame that can stand on a wire, with any code and as many bytes as it says.
pub fn frame(random: &mut Random) -> Frame {
    let extended = random.percent(50);
    let remote = random.percent(20);
    let code = random.below(16) as u32;
    let count = if remote { 0 } else { code.min(8) };
    let data = (0..count).map(|_| byte(random)).collect();
    Frame { extended, ident: ident(random, extended), remote, code, data }
}

pub fn fd_frame(random: &mut Random) -> fd::Frame {
    let extended = random.percent(50);
    let code = random.below(16) as u32;
    let data = (0..fd::count(code)).map(|_| byte(random)).collect();
    let (brs, esi) = (random.percent(50), random.percent(20));
    fd::Frame { extended, ident: ident(random, extended), brs, esi, code, data }
}

/// An identifier that base frames have and old controllers do not take, or one right below those.
fn near_old(random: &mut Random) -> u32 {
    let any = 2_032 + random.below(16) as u32;
    random.pick(&[2_031, 2_032, 2_047, any])
}

/// A line whose frame a writer refuses, for one reason or for several; some only where old controllers are marked.
fn refused(random: &mut Random) -> String {
    let mut frame = frame(random);
    let reasons = random.pick(&[1, 2, 4, 4, 4, 3, 5, 6, 7]);
    if reasons & 2 != 0 {
        frame.ident = near_old(random);
    }
    if reasons & 1 != 0 {
        let (lowest, others) = if frame.extended { (0x2000_0000, 0xE000_0000) } else { (0x800, 0x800) };
        frame.ident = lowest + if random.percent(30) { 0 } else { random.below(others) as u32 };
    }
    if reasons & 4 != 0 {
        let count = random.below(9);
        frame.data = (0..count).map(|_| byte(random)).collect();
    }
    if frame.remote && !frame.data.is_empty() {
        let bytes: String = frame.data.iter().map(|byte| format!("{byte:02X}")).collect();
        frame.data.clear();
        return format!("{}.{bytes}", notation::show(&frame));
    }
    notation::show(&frame)
}

/// A line with a letter or a few changed, so that it seldom reads, and sometimes reads as another frame.
fn damaged(random: &mut Random) -> String {
    let mut line = notation::show(&frame(random)).into_bytes();
    for _ in 0..1 + random.below(3) {
        let at = random.below(line.len().max(1)).min(line.len());
        let other = random.pick(b"0F9afgR#._-+ x\t\0r/:@G`\x7F");
        match random.below(3) {
            0 => line.insert(at, other),
            1 if at < line.len() => line[at] = other,
            _ => line.truncate(at),
        }
    }
    String::from_utf8(line).expect("ASCII")
}

/// Lines that are wrong or odd as a whole.
fn odd(random: &mut Random) -> String {
    let digits = "0123456789abcdefABCDEF".repeat(3);
    let any = random.below(digits.len());
    let count = random.pick(&[any, 15, 16, 17, 18]);
    match random.below(10) {
        0 => String::new(),
        1 => format!("123#{}{}", &digits[..count], random.pick(&["", "_8"])),
        2 => format!("{}#11", &digits[..count]),
        3 => format!("123#R{}", random.pick(&["", "0", "9", ".", "5.", "F.", "00", "5.1", "..", "5.1122", ".11"])),
        4 => format!("123#{}", random.pick(&["_", "_0", "_8", "_F", "_10", "11_1", "11__1", "_1_1", "R_1", "11.22"])),
        5 => "1".repeat(random.below(9000)),
        6 => format!("123#{}é", &digits[..count % 20]),
        7 => format!("123#R8.{}", &digits[..count]),
        8 => random.pick(&["old", "old ", "old  on", "OLD ON", "old on ", " old off", "old of", "oldon"]).to_string(),
        _ => {
            random.pick(&["#", "123", "12#", "1234#", "1234567#", "123456789#", " 123#", "123# ", "123##"]).to_string()
        }
    }
}

/// As many frames that a writer takes, but for old controllers, a line for each, with other lines among them; the last line may have
/// no end.
pub fn lines(random: &mut Random, count: usize) -> Vec<u8> {
    let mut text = String::new();
    let mut frames = 0;
    while frames < count {
        let line = match random.below(100) {
            0..=1 => random.pick(&["old on", "old off"]).to_string(),
            2..=74 => {
                frames += 1;
                notation::show(&frame(random))
            }
            75..=87 => refused(random),
            88..=94 => damaged(random),
            _ => odd(random),
        };
        text += &if random.percent(10) { line.to_lowercase().replace('r', "R") } else { line };
        text += if random.percent(5) { "\r\n" } else { "\n" };
    }
    if random.percent(50) {
        text.pop();
    }
    text.into_bytes()
}
