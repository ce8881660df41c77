//! `put`: a line for each frame, its image or why there is none; and lines that mark old controllers, or do not, for those after.

use crate::notation;
use crate::wire::{self, Frame};

/// The first of the writer's refusals that applies (document 01, "When the handset says no"; W-207). A code that 2 is for has two
/// digits, and no line says one.
fn refusal(frame: &Frame, old: bool) -> Option<u32> {
    let highest = if frame.extended { 536_870_911 } else { 2_047 };
    let forbidden = old && !frame.extended && frame.ident >> 4 == 0b111_1111;
    let wanted = if frame.remote { 0 } else { frame.code.min(8) };
    let reasons = [(1, frame.ident > highest), (8, forbidden), (3, frame.data.len() != wanted as usize)];
    reasons.iter().find(|(_, applies)| *applies).map(|(number, _)| *number)
}

fn answer(line: &str, old: bool) -> String {
    let frame = match notation::parse(line) {
        Some(frame) => frame,
        None => return "not a frame".to_string(),
    };
    match refusal(&frame, old) {
        Some(number) => format!("refused {number}"),
        None => wire::image(&wire::plain(&frame, 0), '1'),
    }
}

/// Lines end in LF or CR LF; the last may end with the input.
pub fn run(input: &[u8]) -> String {
    let mut output = String::new();
    let mut old = false;
    for line in input.split_inclusive(|byte| *byte == b'\n') {
        let line = line.strip_suffix(b"\n").unwrap_or(line);
        let line = line.strip_suffix(b"\r").unwrap_or(line);
        match line {
            b"old on" => old = true,
            b"old off" => old = false,
            _ => {
                output += &answer(&String::from_utf8_lossy(line), old);
                output.push('\n');
            }
        }
    }
    output
}
