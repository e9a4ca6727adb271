//! Why texts are refused, in words, and the texts of values in place.

use kohiblad::{fault_words, fault_words_with_exponents, ExtensionValue, OwnedJsonb, Path};

#[test]
fn words_of_faults() {
    let many = "x".repeat(99);
    let wide = "\u{e9}".repeat(21);
    for (text, words) in [
        ("", "expected a value at byte 0, found the end"),
        ("{\"a\" 1}", "expected ':' at byte 5, found '1'"),
        ("[1 2]", "expected ',' or ']' at byte 3, found '2'"),
        ("{1:2}", "expected a key or '}' at byte 1, found '1'"),
        ("[1]]", "expected the end at byte 3, found ']'"),
        ("[True]", "expected a value or ']' at byte 1, found 'True'"),
        ("'a'", "expected a value at byte 0, found \"'\""),
        (
            "[1.5",
            "expected a digit, ',', ']' or an exponent at byte 4, found the end",
        ),
        (
            "[\"a\n\"]",
            "expected the rest of a string at byte 3, found 0x0a",
        ),
        (
            "\u{feff}1",
            "expected a value at byte 0, found a byte order mark",
        ),
        (
            &format!("[{many}"),
            "expected a value or ']' at byte 1, found 'xxxxxxxxxxxxxxxxxxxx..'",
        ),
        (
            &format!("[{wide}"),
            &format!(
                "expected a value or ']' at byte 1, found '{}..'",
                &wide[..40]
            ),
        ),
        (
            "[\u{9b}2J\u{202e}c\u{2066}]",
            "expected a value or ']' at byte 1, found '\\u009b2J\\u202ec\\u2066'",
        ),
        (
            "[\u{e0041}\u{ad}\u{2028}\u{feff}\u{200f}\u{61c}\u{180e}]",
            "expected a value or ']' at byte 1, found \
             '\\udb40\\udc41\\u00ad\\u2028\\ufeff\\u200f\\u061c\\u180e'",
        ),
        (
            &format!("[{}", "\u{85}".repeat(21)),
            &format!(
                "expected a value or ']' at byte 1, found '{}..'",
                "\\u0085".repeat(20)
            ),
        ),
        (
            "[12.]",
            "at byte 4 of a number that is unfinished or too long, in '12.'",
        ),
        (
            &format!("[{}]", "1".repeat(60)),
            &format!(
                "at byte 40 of a number that is unfinished or too long, in '{}..'",
                "1".repeat(40)
            ),
        ),
    ] {
        let found = fault_words_with_exponents(text, 64);
        assert_eq!(found.as_deref(), Some(words), "{text}");
    }
    let forbidden =
        "at byte 2 of a number that is unfinished, too long, or has an exponent, in '1e5'";
    assert_eq!(fault_words("[1e5]", 64).as_deref(), Some(forbidden));
    assert_eq!(fault_words_with_exponents("[1e5]", 64), None);
    assert_eq!(
        fault_words(b"\"\xff\"", 64).as_deref(),
        Some("the text is not UTF-8")
    );
    assert_eq!(
        fault_words("[[]]", 1).as_deref(),
        Some("the text nests deeper than the depth")
    );
}

#[test]
fn texts_are_refused_with_words_and_no_others() {
    for text in [
        "[1]",
        "[1,]",
        "1e5",
        "01",
        "{\"a\":1}",
        "{\"a\":1,\"a\":2}",
        "\"\\u0000\"",
        "-",
    ] {
        for depth in [0, 1, usize::MAX] {
            let plain = OwnedJsonb::parse(text, depth);
            assert_eq!(fault_words(text, depth).is_some(), plain.is_err(), "{text}");
            let all = OwnedJsonb::parse_with_exponents(text, depth);
            assert_eq!(
                fault_words_with_exponents(text, depth).is_some(),
                all.is_err()
            );
        }
    }
}

#[test]
fn texts_of_values_in_place() {
    let text = r#"{"a":[1,{"b":2.50}],"b":"x\"","c":null,"d":true,"e":{},"f":-7,"":""}"#;
    let parsed = OwnedJsonb::parse(text, 64).unwrap();
    let day = OwnedJsonb::of(ExtensionValue::Date(20_000)).unwrap();
    let days = OwnedJsonb::object_of([("day", day.as_raw())]).unwrap();
    let row = parsed.as_raw().concat(days.as_raw()).unwrap();
    let row = row.as_raw();
    let mut count = 0;
    for (name, _) in row.members().unwrap() {
        let wanted = row.get(name).unwrap().unwrap().to_string();
        assert_eq!(row.text_of(name).unwrap(), Some(wanted.clone()));
        assert_eq!(row.text_at(&Path::new().key(name)).unwrap(), Some(wanted));
        count += 1;
    }
    assert_eq!(count, 8);
    assert_eq!(row.text_of("x").unwrap(), None);
    assert_eq!(row.text_at(&Path::new()).unwrap(), Some(row.to_string()));
    let inner = Path::new().key("a").index(-1).key("b");
    assert_eq!(row.text_at(&inner).unwrap().as_deref(), Some("2.50"));
    let (array, scalar) = (OwnedJsonb::parse("[5]", 1), OwnedJsonb::parse("5", 0));
    assert_eq!(array.unwrap().as_raw().text_of("a").unwrap(), None);
    let scalar = scalar.unwrap();
    assert_eq!(scalar.as_raw().text_of("a").unwrap(), None);
    assert_eq!(
        scalar.as_raw().text_at(&Path::new()).unwrap().as_deref(),
        Some("5")
    );
}
