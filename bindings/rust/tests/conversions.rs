//! Documents of Rust's values: their text is that which Rust prints, and they are the documents of
//! that text.

use std::collections::BTreeMap;

use kohiblad::{Error, ExtensionValue, Node, Number, OwnedJsonb};

fn assert_is(document: Result<OwnedJsonb, Error>, text: &str) {
    let document = document.unwrap();
    assert_eq!(document.to_string(), text);
    let parsed = OwnedJsonb::parse(text, 2).unwrap();
    assert_eq!(document.as_bytes(), parsed.as_bytes());
}

macro_rules! assert_kept {
    ($($integer:ty)*) => {$(
        for value in [<$integer>::MIN, 0, 1, <$integer>::MAX] {
            let text = value.to_string();
            assert_is(OwnedJsonb::of(value), &text);
            assert_is(OwnedJsonb::of(Some(value)), &text);
            assert_is(OwnedJsonb::try_from(value), &text);
            assert_is(OwnedJsonb::array_of([value]), &format!("[{text}]"));
            let number = Number::from(value);
            assert_eq!((number.digits.to_string(), number.scale), (text, 0));
        }
    )*};
}

#[test]
fn integers_are_kept() {
    assert_kept!(i8 i16 i32 i64 i128 isize u8 u16 u32 u64 usize);
}

#[test]
fn integers_past_the_format_are_refused() {
    let most = (1_u128 << 127) - 1;
    assert_is(OwnedJsonb::try_from(most), &most.to_string());
    assert_is(OwnedJsonb::try_from(Some(0_u128)), "0");
    for value in [most + 1, u128::MAX] {
        assert_eq!(OwnedJsonb::try_from(value), Err(Error::PastRange));
        assert_eq!(Number::try_from(value), Err(Error::PastRange));
        assert_eq!(Node::try_from(value).unwrap_err(), Error::PastRange);
        assert_eq!(OwnedJsonb::array_of([value]), Err(Error::PastRange));
    }
}

#[test]
fn texts_are_strings_and_are_not_read() {
    let text = String::from("[1]");
    assert_is(OwnedJsonb::of(&text), r#""[1]""#);
    assert_is(OwnedJsonb::try_from(&text), r#""[1]""#);
    assert_is(OwnedJsonb::try_from(text.as_str()), r#""[1]""#);
    assert_is(OwnedJsonb::try_from(text), r#""[1]""#);
    assert_is("[1]".parse(), "[1]");
}

#[test]
fn none_is_null() {
    assert_is(OwnedJsonb::of(None::<i32>), "null");
    assert_is(OwnedJsonb::try_from(None::<String>), "null");
    assert_is(OwnedJsonb::try_from(Some(String::from("a"))), r#""a""#);
    assert_is(OwnedJsonb::try_from(Some(Some(true))), "true");
    assert_is(OwnedJsonb::try_from(Some(None::<bool>)), "null");
}

#[test]
fn other_values_are_those_of_of() {
    let price = Number {
        digits: 150,
        scale: 2,
    };
    let date = ExtensionValue::Date(-2);
    let object = OwnedJsonb::parse(r#"{"a":[1.50,null]}"#, 2).unwrap();
    assert_is(OwnedJsonb::try_from(false), "false");
    assert_is(OwnedJsonb::try_from(price), "1.50");
    assert_is(OwnedJsonb::try_from(Node::from("a")), r#""a""#);
    assert_is(OwnedJsonb::try_from(&object), r#"{"a":[1.50,null]}"#);
    assert_is(OwnedJsonb::of(&object), r#"{"a":[1.50,null]}"#);
    assert_is(
        OwnedJsonb::try_from(object.as_raw()),
        r#"{"a":[1.50,null]}"#,
    );
    let document = OwnedJsonb::try_from(date).unwrap();
    assert_eq!(document.as_raw().as_extension(), Ok(date));
}

#[test]
fn arrays_are_made_of_documents_and_values() {
    let documents = || ["{}", "[5]", "1.50"].map(|text| OwnedJsonb::parse(text, 1).unwrap());
    assert_is(OwnedJsonb::array_of(documents()), "[{},[5],1.50]");
    let kept = documents();
    assert_is(OwnedJsonb::array_of(&kept), "[{},[5],1.50]");
    let raw = kept.iter().rev().map(OwnedJsonb::as_raw);
    assert_is(OwnedJsonb::array_of(raw), "[1.50,[5],{}]");
    assert_is(OwnedJsonb::array_of(Some("a")), r#"["a"]"#);
    assert_is(OwnedJsonb::array_of(Vec::<OwnedJsonb>::new()), "[]");
    let stored = documents().map(OwnedJsonb::into_bytes);
    assert_is(OwnedJsonb::array_of(stored), "[{},[5],1.50]");
    let refused = OwnedJsonb::array_of([b"[]".to_vec()]);
    assert_eq!(refused, Err(Error::InvalidJsonb));
}

#[test]
fn objects_are_made_of_keys_and_values() {
    let counts = BTreeMap::from([(String::from("b"), 2_u64), (String::from("a"), 1)]);
    assert_is(OwnedJsonb::object_of(counts), r#"{"a":1,"b":2}"#);
    let documents = ["[]", "null"].map(|text| OwnedJsonb::parse(text, 1).unwrap());
    let members = ["z", "é"].into_iter().zip(documents);
    assert_is(OwnedJsonb::object_of(members), r#"{"z":[],"é":null}"#);
    let members = [("n", Node::from(-1)), ("", "x".into())];
    assert_is(OwnedJsonb::object_of(members), r#"{"":"x","n":-1}"#);
    assert_is(OwnedJsonb::object_of(Vec::<(&str, bool)>::new()), "{}");
    let refused = OwnedJsonb::object_of([("a", 1), ("b", 2), ("a", 3)]);
    assert_eq!(refused, Err(Error::ObjectDuplicateKey));
}

#[test]
fn nodes_are_shown_as_their_documents() {
    for digits in [0, 7, -7, 150, -150, i128::MIN, i128::MAX] {
        for scale in [0, 1, 2, 3, 38, 39, 255] {
            let number = Number { digits, scale };
            let text = OwnedJsonb::of(number).unwrap().to_string();
            assert_eq!(number.to_string(), text);
            assert_eq!(Node::Number(number).to_string(), text);
        }
    }
    let array = OwnedJsonb::parse(r#"["a",1.50]"#, 1).unwrap();
    for (node, text) in [
        (Node::Null, "null"),
        (true.into(), "true"),
        ("say \"x\"\n".into(), "say \"x\"\n"),
        ((&array).into(), r#"["a",1.50]"#),
        (ExtensionValue::Date(-3).into(), "-3"),
        (ExtensionValue::Binary(&[1, 0xab]).into(), "01ab"),
    ] {
        assert_eq!(node.to_string(), text);
    }
    assert_eq!(
        format!("{:#}", Node::from(&array)),
        "[\n  \"a\",\n  1.50\n]"
    );
}
