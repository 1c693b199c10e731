//! The texts of tests/corner_texts.txt, each with a search call and its answer.

pub struct CornerText {
    /// What it is there for.
    pub what: &'static str,
    pub text: Vec<u8>,
    pub start: Vec<u8>,
    pub room: usize,
    pub allowance: u64,
    pub answer: &'static str,
}

/// All of them; the file says how they are written.
pub fn corner_texts() -> Vec<CornerText> {
    let stored = include_str!("../../tests/corner_texts.txt").split("\n\n").skip(1);
    stored.map(corner_text).collect()
}

fn corner_text(stored: &'static str) -> CornerText {
    let [what, text, call, answer] = stored.lines().collect::<Vec<_>>()[..] else {
        panic!("a text has four lines: {stored}");
    };
    let part = |name: &str| {
        let parts = call.split(", ").filter_map(|part| part.strip_prefix(name));
        parts.last().expect("each part of a call is given").trim()
    };
    let number = |digits: &str| digits.parse::<u64>().expect("a number");
    let start = part("start").split(' ').filter(|&word| word != "empty");
    CornerText {
        what,
        text: unquoted(text),
        start: start.map(|event| number(event) as u8).collect(),
        room: number(part("room")) as usize,
        allowance: number(part("allowance")),
        answer,
    }
}

/// The bytes of a stored text.
fn unquoted(stored: &str) -> Vec<u8> {
    let inner = stored.strip_prefix('"').and_then(|rest| rest.strip_suffix('"'));
    let (mut bytes, mut rest) = (Vec::new(), inner.expect("a text stands in quotes").bytes());
    while let Some(byte) = rest.next() {
        bytes.push(match byte {
            b'\\' => escaped(&mut rest),
            byte => byte,
        });
    }
    bytes
}

/// The byte behind a backslash.
fn escaped(rest: &mut impl Iterator<Item = u8>) -> u8 {
    match rest.next() {
        Some(b'n') => b'\n',
        Some(b'r') => b'\r',
        Some(b't') => b'\t',
        Some(b'x') => {
            let digits: Vec<u8> = rest.take(2).collect();
            let digits = std::str::from_utf8(&digits).expect("digits are of ASCII");
            u8::from_str_radix(digits, 16).expect("a byte has two hex digits")
        }
        other => panic!("no such escape: {other:?}"),
    }
}
