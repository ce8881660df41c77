//! `count`: a station's two error counts over a history of events (document 01, "The fault ledger"; W-210 for recoveries).

fn is_off(t: u32) -> bool {
    t > 255
}

fn is_passive(t: u32, r: u32) -> bool {
    !is_off(t) && (t > 127 || r > 127)
}

/// T, R, and the groups that are still to come before the station is back, once somebody has asked.
type Station = (u32, u32, Option<u32>);

/// The station after one more event, told by its digit.
fn next((t, r, to_come): Station, event: u8) -> Station {
    if is_off(t) {
        return match (event, to_come) {
            (b'a', None) => (t, r, Some(128)),
            (b'9', Some(1)) => (0, 0, None),
            (b'9', Some(more)) => (t, r, Some(more - 1)),
            _ => (t, r, to_come),
        };
    }
    match event {
        b'0' => (t, (r + 1).min(255), None),
        b'1' | b'3' => (t, (r + 8).min(255), None),
        b'5' if is_passive(t, r) => (t, r, None),
        b'2' | b'4' | b'5' => (t + 8, r, None),
        b'7' => (t.saturating_sub(1), r, None),
        b'8' => (t, r.saturating_sub(1).min(127), None),
        _ => (t, r, None),
    }
}

pub fn run(input: &[u8]) -> String {
    let mut output = String::new();
    let mut station = (0, 0, None);
    for byte in input.iter().filter(|byte| !b" \t\r\n".contains(byte)) {
        if !b"0123456789a".contains(byte) {
            output += "not an event\n";
            continue;
        }
        station = next(station, *byte);
        let (t, r, to_come) = station;
        let groups = to_come.map_or(0, |more| 128 - more);
        let state = match (is_off(t), is_passive(t, r)) {
            (true, _) => "off",
            (_, true) => "passive",
            _ => "active",
        };
        output += &format!("{t} {r} {groups} {state}\n");
    }
    output
}
