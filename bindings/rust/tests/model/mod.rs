//! Values as docs/FORMAT.md describes them: how they are stored, printed and ordered. Nothing here
//! calls the library.

use std::cmp::Ordering;
use std::collections::BTreeMap;

/// A value. The variants rise as the kinds do, so the derived order is that of values.
#[derive(Clone, Debug, PartialEq, Eq, PartialOrd, Ord)]
pub enum Tree {
    Extension(Extension),
    Boolean(bool),
    Number(Number),
    Text(String),
    Object(BTreeMap<String, Tree>),
    Array(Vec<Tree>),
    Null,
}

/// An extension value. The variants and their fields are in the order in which they are compared.
#[derive(Clone, Debug, PartialEq, Eq, PartialOrd, Ord)]
pub enum Extension {
    Binary(Vec<u8>),
    Date(i32),
    Timestamp(i64),
    TimestampTz(i64, i32),
    Interval(i32, i32, i64),
    Opaque(u8, Vec<u8>),
}

/// A number, compared by its value.
#[derive(Clone, Copy, Debug)]
pub struct Number {
    pub digits: i128,
    pub scale: u8,
}

impl Number {
    /// The digits before the point and after it.
    fn halves(self) -> (String, String) {
        let scale = usize::from(self.scale);
        let digits = format!("{:0>1$}", self.digits.unsigned_abs(), scale + 1);
        let (whole, fraction) = digits.split_at(digits.len() - scale);
        (whole.into(), fraction.into())
    }

    fn text(self) -> String {
        let (whole, fraction) = self.halves();
        let sign = if self.digits < 0 { "-" } else { "" };
        let point = if self.scale > 0 { "." } else { "" };
        format!("{sign}{whole}{point}{fraction}")
    }

    /// The digits, with as many before the point and after it for every number.
    fn aligned(self) -> String {
        let (whole, fraction) = self.halves();
        format!("{whole:0>40}{fraction:0<255}")
    }
}

impl Ord for Number {
    fn cmp(&self, other: &Self) -> Ordering {
        let magnitudes = self.aligned().cmp(&other.aligned());
        match (self.digits < 0, other.digits < 0) {
            (false, false) => magnitudes,
            (true, true) => magnitudes.reverse(),
            (left, right) => right.cmp(&left),
        }
    }
}

impl PartialOrd for Number {
    fn partial_cmp(&self, other: &Self) -> Option<Ordering> {
        Some(self.cmp(other))
    }
}

impl PartialEq for Number {
    fn eq(&self, other: &Self) -> bool {
        self.cmp(other).is_eq()
    }
}

impl Eq for Number {}

/// Numbers that look like chance, the same in each run.
pub struct Generator(pub u64);

impl Generator {
    /// The next number, by splitmix64.
    pub fn bits(&mut self) -> u64 {
        self.0 = self.0.wrapping_add(0x9e37_79b9_7f4a_7c15);
        let mut mixed = self.0;
        mixed = (mixed ^ (mixed >> 30)).wrapping_mul(0xbf58_476d_1ce4_e5b9);
        mixed = (mixed ^ (mixed >> 27)).wrapping_mul(0x94d0_49bb_1331_11eb);
        mixed ^ (mixed >> 31)
    }

    pub fn below(&mut self, count: usize) -> usize {
        (self.bits() % count as u64) as usize
    }

    /// A value that nests at most so deep.
    pub fn tree(&mut self, depth: usize) -> Tree {
        match self.below(if depth == 0 { 8 } else { 14 }) {
            0 => Tree::Null,
            1 => Tree::Boolean(self.below(2) == 1),
            2..=4 => Tree::Number(self.number()),
            5 | 6 => Tree::Text(self.text()),
            7 => Tree::Extension(self.extension()),
            8..=10 => Tree::Array((0..self.below(5)).map(|_| self.tree(depth - 1)).collect()),
            _ => {
                let members = 0..self.below(5);
                Tree::Object(
                    members
                        .map(|_| (self.text(), self.tree(depth - 1)))
                        .collect(),
                )
            }
        }
    }

    fn number(&mut self) -> Number {
        let bits = i128::from(self.bits()) << 64 | i128::from(self.bits());
        let digits = match self.below(4) {
            0 => bits >> (127 - self.below(127)),
            1 => [0, 1, -1, 5, 50, 500, -50][self.below(7)],
            2 => {
                let bound = 1_i128 << [7, 8, 15, 16, 31, 32, 63, 64][self.below(8)];
                let sign = [1, -1][self.below(2)];
                sign * bound + [-1, 0, 1][self.below(3)]
            }
            _ => [i128::MAX, i128::MIN, 0][self.below(3)],
        };
        let scale = [0, 0, 0, 1, 2, 38, 255][self.below(7)];
        Number { digits, scale }
    }

    fn text(&mut self) -> String {
        const PIECES: [&str; 13] = [
            "a",
            "b",
            "price",
            "\"",
            "\\",
            "\u{0}",
            "\u{1f}",
            "\u{8}\u{c}",
            "\n\r\t",
            "/",
            "é",
            "\u{7f}",
            "😀",
        ];
        (0..self.below(4))
            .map(|_| PIECES[self.below(PIECES.len())])
            .collect()
    }

    fn data(&mut self) -> Vec<u8> {
        (0..self.below(30))
            .map(|_| self.bits() as u8 >> self.below(8))
            .collect()
    }

    fn extension(&mut self) -> Extension {
        let narrow = |bits: u64| bits as i32;
        match self.below(6) {
            0 => Extension::Binary(self.data()),
            1 => Extension::Date(narrow(self.bits())),
            2 => Extension::Timestamp(self.bits() as i64),
            3 => {
                let offset = [0, 3_600, -3_600, 7_200, 5, narrow(self.bits())][self.below(6)];
                Extension::TimestampTz(self.below(3) as i64 - 1, offset)
            }
            4 => {
                let (months, days) = (self.below(3) as i32 - 1, narrow(self.bits()));
                Extension::Interval(months, days, self.bits() as i64)
            }
            _ => Extension::Opaque(0x50 + 0x10 * self.below(11) as u8, self.data()),
        }
    }
}

const ARRAY: u32 = 0x8000_0000;
const OBJECT: u32 = 0x4000_0000;
const SCALAR: u32 = 0x2000_0000;

impl Tree {
    /// The canonical document.
    pub fn document(&self) -> Vec<u8> {
        self.document_in(&mut || false)
    }

    /// A document in which a payload has an old form if `old` returns true for it.
    pub fn document_in(&self, old: &mut dyn FnMut() -> bool) -> Vec<u8> {
        match self {
            Tree::Array(items) => {
                let parts: Vec<_> = items.iter().map(|item| item.part(old)).collect();
                joined(ARRAY, items.len(), &parts)
            }
            Tree::Object(members) => {
                let keys = members
                    .keys()
                    .map(|key| (0x1000_0000, key.as_bytes().to_vec()));
                let mut parts: Vec<_> = keys.collect();
                parts.extend(members.values().map(|value| value.part(old)));
                joined(OBJECT, members.len(), &parts)
            }
            _ => joined(SCALAR, 0, &[self.part(old)]),
        }
    }

    /// The tag of the entry, and the payload.
    fn part(&self, old: &mut dyn FnMut() -> bool) -> (u32, Vec<u8>) {
        match self {
            Tree::Null => (0x0000_0000, Vec::new()),
            Tree::Text(text) => (0x1000_0000, text.as_bytes().to_vec()),
            Tree::Number(number) => (0x2000_0000, number_payload(*number, old())),
            Tree::Boolean(false) => (0x3000_0000, Vec::new()),
            Tree::Boolean(true) => (0x4000_0000, Vec::new()),
            Tree::Array(_) | Tree::Object(_) => (0x5000_0000, self.document_in(old)),
            Tree::Extension(value) => (0x6000_0000, extension_payload(value, old())),
        }
    }

    pub fn depth(&self) -> usize {
        fn above<'a>(children: impl Iterator<Item = &'a Tree>) -> usize {
            1 + children.map(Tree::depth).max().unwrap_or(0)
        }
        match self {
            Tree::Array(items) => above(items.iter()),
            Tree::Object(members) => above(members.values()),
            _ => 0,
        }
    }

    /// Whether the text means the same value: an extension value is printed as a string.
    pub fn is_plain(&self) -> bool {
        match self {
            Tree::Extension(_) => false,
            Tree::Array(items) => items.iter().all(Tree::is_plain),
            Tree::Object(members) => members.values().all(Tree::is_plain),
            _ => true,
        }
    }

    pub fn compact(&self) -> String {
        match self {
            Tree::Array(items) => {
                let items: Vec<_> = items.iter().map(Tree::compact).collect();
                format!("[{}]", items.join(","))
            }
            Tree::Object(members) => {
                let pair =
                    |(key, value): (&String, &Tree)| format!("{}:{}", quoted(key), value.compact());
                let members: Vec<_> = members.iter().map(pair).collect();
                format!("{{{}}}", members.join(","))
            }
            scalar => scalar.scalar_text(),
        }
    }

    /// The pretty text, of which each further line is indented by so many spaces.
    pub fn pretty(&self, indent: usize) -> String {
        let (open, children, close) = match self {
            Tree::Array(items) => {
                let items = items.iter().map(|item| item.pretty(indent + 2));
                ('[', items.collect::<Vec<_>>(), ']')
            }
            Tree::Object(members) => {
                let pair = |(key, value): (&String, &Tree)| {
                    format!("{}: {}", quoted(key), value.pretty(indent + 2))
                };
                ('{', members.iter().map(pair).collect(), '}')
            }
            scalar => return scalar.scalar_text(),
        };
        if children.is_empty() {
            return format!("{open}{close}");
        }
        let line = format!("\n{:1$}", "", indent);
        let children = children.join(&format!(",{line}  "));
        format!("{open}{line}  {children}{line}{close}")
    }

    fn scalar_text(&self) -> String {
        match self {
            Tree::Null => "null".into(),
            Tree::Boolean(value) => value.to_string(),
            Tree::Number(number) => number.text(),
            Tree::Text(text) => quoted(text),
            Tree::Extension(value) => format!("\"{}\"", extension_text(value)),
            Tree::Array(_) | Tree::Object(_) => unreachable!("a container is no scalar"),
        }
    }
}

/// A header, the entries of the parts and their payloads.
fn joined(tag: u32, count: usize, parts: &[(u32, Vec<u8>)]) -> Vec<u8> {
    let mut document = (tag + count as u32).to_be_bytes().to_vec();
    for (entry_tag, payload) in parts {
        document.extend((entry_tag + payload.len() as u32).to_be_bytes());
    }
    for (_, payload) in parts {
        document.extend(payload);
    }
    document
}

/// A first byte, and the number in the fewest of 1, 2, 4 or 8 bytes that hold it, or in 8.
fn whole(first: u8, value: i128, holds: impl Fn(u32) -> bool, wide: bool) -> Vec<u8> {
    let narrowest = [1, 2, 4, 8].into_iter().find(|&size| holds(8 * size));
    let size = if wide {
        8
    } else {
        narrowest.expect("the number has 64 bits") as usize
    };
    let mut payload = vec![first];
    payload.extend(&value.to_be_bytes()[16 - size..]);
    payload
}

fn number_payload(number: Number, old: bool) -> Vec<u8> {
    let Number { digits, scale } = number;
    let (least, greatest) = (i128::from(i64::MIN), i128::from(i64::MAX));
    if scale == 0 && digits == 0 {
        return if old { vec![0x40, 0] } else { vec![0] };
    }
    if scale == 0 && (1..=i128::from(u64::MAX)).contains(&digits) {
        return whole(0x50, digits, |bits| digits >> bits == 0, old);
    }
    if scale == 0 && (least..0).contains(&digits) {
        return whole(0x40, digits, |bits| digits >> (bits - 1) == -1, old);
    }
    let mut payload = vec![0x70];
    if scale > 0 && (least..=greatest).contains(&digits) {
        payload.extend((digits as i64).to_be_bytes());
    } else {
        payload.extend(digits.to_be_bytes());
        payload.extend(old.then_some(0xab));
    }
    payload.push(scale);
    payload
}

fn extension_payload(value: &Extension, old: bool) -> Vec<u8> {
    match value {
        Extension::Binary(data) => [&[0x00], &data[..]].concat(),
        Extension::Date(date) => [&[0x10], &date.to_be_bytes()[..]].concat(),
        Extension::Timestamp(value) => [&[0x20], &value.to_be_bytes()[..]].concat(),
        Extension::TimestampTz(value, offset) => {
            let hours = i8::try_from(offset / 3_600).ok();
            let offset = match hours {
                Some(hours) if old && offset % 3_600 == 0 => hours.to_be_bytes().to_vec(),
                _ => offset.to_be_bytes().to_vec(),
            };
            [&[0x30], &value.to_be_bytes()[..], &offset].concat()
        }
        Extension::Interval(months, days, micros) => {
            let (months, days) = (months.to_be_bytes(), days.to_be_bytes());
            [&[0x40], &months[..], &days, &micros.to_be_bytes()].concat()
        }
        Extension::Opaque(tag, data) => [&[*tag], &data[..]].concat(),
    }
}

fn extension_text(value: &Extension) -> String {
    let hex = |data: &[u8]| {
        data.iter()
            .map(|byte| format!("{byte:02x}"))
            .collect::<String>()
    };
    match value {
        Extension::Binary(data) => hex(data),
        Extension::Date(date) => date.to_string(),
        Extension::Timestamp(value) => value.to_string(),
        Extension::TimestampTz(value, offset) => format!("{value} {offset}"),
        Extension::Interval(months, days, micros) => format!("{months} {days} {micros}"),
        Extension::Opaque(tag, data) => hex(&[&[*tag], &data[..]].concat()),
    }
}

fn quoted(text: &str) -> String {
    let mut quoted = String::from("\"");
    for character in text.chars() {
        match character {
            '"' => quoted.push_str("\\\""),
            '\\' => quoted.push_str("\\\\"),
            '\u{8}' => quoted.push_str("\\b"),
            '\t' => quoted.push_str("\\t"),
            '\n' => quoted.push_str("\\n"),
            '\u{c}' => quoted.push_str("\\f"),
            '\r' => quoted.push_str("\\r"),
            '\u{0}'..='\u{1f}' => quoted.push_str(&format!("\\u{:04x}", u32::from(character))),
            other => quoted.push(other),
        }
    }
    quoted + "\""
}
