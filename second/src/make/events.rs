//! Histories for `count` that go through every state, and through each border from both sides.

use super::Random;

/// The events of a stretch are drawn from one of these, each as likely as it is written often.
const MIXES: [&[u8]; 10] = [
    b"0123456789a",
    b"0000001388888",
    b"24577777777777777777",
    b"2244445",
    b"44777",
    b"11338",
    b"0133",
    b"5",
    b"7777777788888888",
    b"0124577777777888889a",
];

/// A station that is off hears little but groups, with nobody asking, or somebody once in a while.
const GROUPS: [&[u8]; 2] = [b"99999999999999999999999990123456789", b"9999999999999999999999999012345678a"];

pub fn history(random: &mut Random, count: usize) -> Vec<u8> {
    let mut text = Vec::new();
    let mut events = 0;
    while events < count {
        let groups = random.percent(30);
        let mix = if groups { random.pick(&GROUPS) } else { random.pick(&MIXES) };
        let longest = if groups { 300 } else { 80 };
        let stretch = random.below(longest).min(count - events);
        for _ in 0..stretch {
            text.push(random.pick(mix));
            if random.percent(2) {
                text.push(random.pick(b" \t\r\n\n\n"));
            }
            if random.below(500) == 0 {
                text.push(random.pick(b"x-/:Ab`\0\xFF"));
            }
        }
        events += stretch;
        text.push(b'\n');
    }
    text
}
