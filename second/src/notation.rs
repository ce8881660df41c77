//! Frames as can-utils writes them: `123#1122`, `00000123#R5`, `123#1122334455667788_F`.

use crate::wire::Frame;

/// A number of exactly these hexadecimal digits, capitals or not. (The library alone would read a sign too.)
fn hex(digits: &str) -> Option<u32> {
    let all_digits = digits.chars().all(|c| c.is_ascii_hexdigit());
    all_digits.then(|| u32::from_str_radix(digits, 16).ok()).flatten()
}

/// 0 to 8 bytes of two digits each.
fn bytes(digits: &str) -> Option<Vec<u8>> {
    if digits.len() > 16 || digits.len() % 2 == 1 {
        return None;
    }
    (0..digits.len()).step_by(2).map(|at| Some(hex(digits.get(at..at + 2)?)? as u8)).collect()
}

/// A length code of one digit.
fn code(digit: &str) -> Option<u32> {
    hex(digit).filter(|_| digit.len() == 1)
}

/// The frame that a line says, or none where the line does not read.
pub fn parse(line: &str) -> Option<Frame> {
    let (address, body) = line.split_once('#')?;
    let extended = match address.len() {
        3 => false,
        8 => true,
        _ => return None,
    };
    let ident = hex(address)?;
    let (remote, code, data) = if let Some(rest) = body.strip_prefix('R') {
        let (digit, data) = rest.split_once('.').unwrap_or((rest, ""));
        (true, if digit.is_empty() { 0 } else { code(digit)? }, bytes(data)?)
    } else if let Some((data, digit)) = body.split_once('_') {
        (false, code(digit)?, bytes(data)?)
    } else {
        let data = bytes(body)?;
        (false, data.len() as u32, data)
    };
    Some(Frame { extended, ident, remote, code, data })
}

/// The frame in this notation, the code added only where the bytes do not tell it.
pub fn show(frame: &Frame) -> String {
    let Frame { ident, code, .. } = frame;
    let address = if frame.extended { format!("{ident:08X}") } else { format!("{ident:03X}") };
    let data: String = frame.data.iter().map(|byte| format!("{byte:02X}")).collect();
    let is_told = *code as usize == frame.data.len();
    match (frame.remote, is_told) {
        (true, true) => format!("{address}#R"),
        (true, false) => format!("{address}#R{code:X}"),
        (false, true) => format!("{address}#{data}"),
        (false, false) => format!("{address}#{data}_{code:X}"),
    }
}
