//! `hear`: what a listener that begins new says of a capture.
//!
//! The accepted samples are one long text. A frame is sought in it as a reader would: eleven recessive bits, the next
//! dominant one, and from there a window that holds any image, which is judged as a whole.

use crate::notation;
use crate::wire;

/// The recessive bits after which a waiting listener is ready.
const IDLE: &str = "11111111111";
/// The longest image and the three bits of intermission.
const WINDOW: usize = 157 + 3;

/// How a window ends. Places are counted from its first bit.
enum End {
    /// The line is over first.
    Cut,
    Trouble(usize, &'static str),
    /// All went well up to this place, the third bit of intermission; a dominant bit there or later starts a frame.
    Ready(usize),
}

/// The start of frame that a ready listener meets from this place on.
fn start_when_ready(line: &str, from: usize) -> Option<usize> {
    Some(from + line.get(from..)?.find('0')?)
}

/// The start of frame that a waiting listener meets, where the eleven may begin at this place.
fn start_when_waiting(line: &str, from: usize) -> Option<usize> {
    let idle = from + line.get(from..)?.find(IDLE)?;
    start_when_ready(line, idle + IDLE.len())
}

/// Judges the window that begins with a start of frame (document 01, "What the listener does at each sample"):
/// the frame that is handed out, with its place, and how it ends.
fn judge(window: &str) -> (Option<(usize, String)>, End) {
    let runs = ["000000", "111111"].iter().filter_map(|run| window.find(run));
    let sixth_equal = runs.min().map(|at| at + 5);
    let sound = &window[..sixth_equal.unwrap_or(window.len())];
    let places: Vec<usize> = (0..sound.len()).filter(|&at| !wire::stuff_bit_follows(&sound[..at])).collect();
    let text: String = places.iter().map(|&at| &sound[at..at + 1]).collect();

    // A recessive FDF begins a newer format, whatever comes behind it.
    if let Some(at) = wire::fdf_at(&text).filter(|&at| text[at..].starts_with('1')) {
        return (None, End::Trouble(places[at], "newer format begun"));
    }

    let read = match wire::read(&text) {
        Some(read) => read,
        None => return (None, sixth_equal.map_or(End::Cut, |at| End::Trouble(at, "stuff error"))),
    };
    let crc_end = places[read.length - 1] + 1;
    if sixth_equal == Some(crc_end) {
        return (None, End::Trouble(crc_end, "stuff error"));
    }

    // From the CRC delimiter on: 0 the delimiter, 1 the slot, 2 the acknowledge delimiter, 3 to 9 end of frame,
    // 10 to 12 intermission. `clear` is how many of these come before the first that should not be dominant.
    let after = crc_end + usize::from(wire::stuff_bit_follows(&window[..crc_end]));
    let tail = window.get(after..).unwrap_or("");
    let clear = tail.char_indices().find(|&(at, bit)| at != 1 && bit == '0').map_or(tail.len(), |(at, _)| at);
    let end = match clear {
        3.. if !read.crc_is_right => End::Trouble(after + 2, "CRC error"),
        12.. => End::Ready(after + 12),
        _ if clear == tail.len() => End::Cut,
        0..=8 => End::Trouble(after + clear, "form error"),
        _ => End::Trouble(after + clear, "overload"),
    };
    let handed_out = (clear > 8 && read.crc_is_right).then(|| {
        let said = format!("frame {} slot={} noted={}", notation::show(&read.frame), &tail[1..2], read.noted);
        (after + 8, said)
    });
    (handed_out, end)
}

/// Every answer but "nothing", each with the place of its sample.
fn answers(line: &str) -> Vec<(usize, String)> {
    let mut said = Vec::new();
    let mut start = start_when_waiting(line, 0);
    while let Some(from) = start {
        let (handed_out, end) = judge(&line[from..line.len().min(from + WINDOW)]);
        said.extend(handed_out.map(|(at, frame)| (from + at, frame)));
        start = match end {
            End::Cut => None,
            End::Ready(at) => start_when_ready(line, from + at),
            End::Trouble(at, name) => {
                said.push((from + at, name.to_string()));
                // Ten of the eleven may stand before the sample behind the trouble's own, which cannot be the last.
                start_when_waiting(line, (from + at + 1).saturating_sub(10))
            }
        };
    }
    said
}

pub fn run(input: &[u8]) -> String {
    let offered = input.iter().filter(|byte| !b" \t\r\n".contains(byte));
    let mut line = String::new();
    let mut numbers = Vec::new();
    let mut lines = Vec::new();
    for (number, byte) in offered.enumerate() {
        match byte {
            0 | b'0' => line.push('0'),
            1 | b'1' => line.push('1'),
            _ => {
                lines.push((number, "refused 6".to_string()));
                continue;
            }
        }
        numbers.push(number);
    }
    lines.extend(answers(&line).into_iter().map(|(at, said)| (numbers[at], said)));
    lines.sort_by_key(|(number, _)| *number);
    lines.iter().map(|(number, said)| format!("{number} {said}\n")).collect()
}
