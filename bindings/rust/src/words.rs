//! Why a text is refused, in words. They are those of `kohiblad_fault_words` in kohiblad.h.

use alloc::format;
use alloc::string::{String, ToString};

use crate::ffi::{self, Exponents};
use crate::Error;

/// What may come in a text, by the bits of the library's classes.
const CLASSES: [&str; 21] = [
    "the rest of a string",
    "a value",
    "a key",
    "an escape",
    "a hexadecimal digit",
    "the other half of a surrogate pair",
    "a digit",
    "a sign",
    "'.'",
    "':'",
    "','",
    "']'",
    "'}'",
    "an exponent",
    "'a'",
    "'e'",
    "'l'",
    "'r'",
    "'s'",
    "'u'",
    "the end",
];

/// So many characters of a word are quoted, and so many bytes of a number.
const MOST_QUOTED: usize = 20;
const MOST_OF_A_NUMBER: usize = 40;

/// Why a text is refused by [`OwnedJsonb::parse`](crate::OwnedJsonb::parse), in words that are put
/// after what was tried; `None` if it is JSON.
///
/// ```
/// let words = kohiblad::fault_words(r#"{"a" 1}"#, 64);
/// assert_eq!(words.as_deref(), Some("expected ':' at byte 5, found '1'"));
/// assert_eq!(kohiblad::fault_words("[1]", 64), None);
/// ```
///
/// Where an allocation fails, there are fewer words, and what the crate allocates itself panics.
pub fn fault_words(text: impl AsRef<[u8]>, depth: usize) -> Option<String> {
    words_of(text.as_ref(), depth, Exponents::Forbidden)
}

/// The same of a text whose numbers may have an exponent, for
/// [`OwnedJsonb::parse_with_exponents`](crate::OwnedJsonb::parse_with_exponents).
///
/// ```
/// let words = kohiblad::fault_words_with_exponents("[1e]", 64);
/// let wanted = "at byte 3 of a number that is unfinished or too long, in '1e'";
/// assert_eq!(words.as_deref(), Some(wanted));
/// ```
pub fn fault_words_with_exponents(text: impl AsRef<[u8]>, depth: usize) -> Option<String> {
    words_of(text.as_ref(), depth, Exponents::Allowed)
}

fn words_of(text: &[u8], depth: usize, exponents: Exponents) -> Option<String> {
    match ffi::text_fault(text, depth, exponents)? {
        Error::InvalidJson { offset } => Some(words_of_syntax(text, offset, depth, exponents)),
        Error::BadNumber { offset } => Some(words_of_number(text, offset, exponents)),
        other => Some(other.reason().to_string()),
    }
}

fn words_of_syntax(text: &[u8], offset: usize, depth: usize, exponents: Exponents) -> String {
    let classes = ffi::text_expected(text, depth, exponents);
    let expected = words_of_classes(classes);
    let found = words_found(&text[offset..]);
    format!("{expected}at byte {offset}, found {found}")
}

/// The classes that may come, which are none after a failed allocation.
fn words_of_classes(classes: u32) -> String {
    let names: alloc::vec::Vec<_> = CLASSES
        .iter()
        .enumerate()
        .filter(|(bit, _)| classes & (1 << bit) != 0)
        .map(|(_, name)| *name)
        .collect();
    match names[..] {
        [] => String::new(),
        [name] => format!("expected {name} "),
        [ref first @ .., last] => format!("expected {} or {last} ", first.join(", ")),
    }
}

/// What a text begins with: a word of at most [`MOST_QUOTED`] characters, or one character.
fn words_found(text: &[u8]) -> String {
    match text {
        [] => return "the end".into(),
        [0xef, 0xbb, 0xbf, ..] => return "a byte order mark".into(),
        [byte @ (0x00..=0x1f | 0x7f), ..] => return format!("0x{byte:02x}"),
        _ => (),
    }
    let quote = if text[0] == b'\'' { '"' } else { '\'' };
    let size = text.iter().take_while(|byte| is_of_word(**byte)).count();
    let word = String::from_utf8_lossy(&text[..size.max(1)]);
    match word.char_indices().nth(MOST_QUOTED) {
        Some((end, _)) => format!("{quote}{}..{quote}", escaped(&word[..end])),
        None => format!("{quote}{}{quote}", escaped(&word)),
    }
}

/// A text with escapes, as JSON has them, for the characters that a terminal may obey.
fn escaped(text: &str) -> String {
    let mut shown = String::with_capacity(text.len());
    for character in text.chars() {
        if is_escaped(character) {
            for unit in character.encode_utf16(&mut [0; 2]) {
                shown += &format!("\\u{unit:04x}");
            }
        } else {
            shown.push(character);
        }
    }
    shown
}

/// Whether a character has an escape: a control character, a separator of lines, and one that
/// changes the direction or the look of the text around it.
fn is_escaped(character: char) -> bool {
    matches!(
        character,
        '\0'..='\x1f'
            | '\x7f'..='\u{9f}'
            | '\u{ad}'
            | '\u{61c}'
            | '\u{180e}'
            | '\u{200b}'..='\u{200f}'
            | '\u{2028}'..='\u{202e}'
            | '\u{2060}'..='\u{206f}'
            | '\u{feff}'
            | '\u{e0000}'..='\u{e0fff}'
    )
}

fn is_of_word(byte: u8) -> bool {
    byte >= 0x80 || byte == b'_' || byte.is_ascii_alphanumeric()
}

fn is_of_number(byte: u8) -> bool {
    byte.is_ascii_digit() || matches!(byte, b'-' | b'+' | b'.' | b'e' | b'E')
}

fn words_of_number(text: &[u8], offset: usize, exponents: Exponents) -> String {
    let why = match exponents {
        Exponents::Forbidden => "unfinished, too long, or has an exponent",
        Exponents::Allowed => "unfinished or too long",
    };
    let before = text[..offset].iter().rev().take(MOST_OF_A_NUMBER);
    let begin = offset - before.take_while(|byte| is_of_number(**byte)).count();
    let rest = text[begin..].iter().take(MOST_OF_A_NUMBER + 1);
    let after = text[offset..]
        .iter()
        .take_while(|byte| is_of_number(**byte));
    let size = (offset - begin + after.count()).min(rest.count());
    let quoted = &text[begin..][..size.min(MOST_OF_A_NUMBER)];
    let end = if size > MOST_OF_A_NUMBER { ".." } else { "" };
    let number = String::from_utf8_lossy(quoted);
    format!("at byte {offset} of a number that is {why}, in '{number}{end}'")
}
