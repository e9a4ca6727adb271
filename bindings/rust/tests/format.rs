//! Answers that docs/FORMAT.md and docs/COMPARABLE.md give.

use kohiblad::{
    bytes, ComparableKey, Error, ExtensionValue, Items, Kind, Members, Node, Number, OwnedJsonb,
    RawJsonb,
};

/// The bytes that hexadecimal gives; spaces are for reading only.
fn hex(text: &str) -> Vec<u8> {
    let digits: Vec<_> = text.chars().filter(|it| !it.is_whitespace()).collect();
    let byte = |pair: &[char]| u8::from_str_radix(&pair.iter().collect::<String>(), 16);
    digits.chunks(2).map(|pair| byte(pair).unwrap()).collect()
}

fn parsed(text: &str) -> OwnedJsonb {
    OwnedJsonb::parse(text, 64).unwrap()
}

#[test]
fn the_document_of_the_page() {
    let stored = hex("80000003 30000000 20000002 5000000e 500a 40000001 10000001 10000001 6b 76");
    let array = RawJsonb::new(&stored).unwrap();
    assert_eq!(parsed(r#"[false,10,{"k":"v"}]"#).as_bytes(), stored);
    assert_eq!(array.to_string(), r#"[false,10,{"k":"v"}]"#);
    let pretty = "[\n  false,\n  10,\n  {\n    \"k\": \"v\"\n  }\n]";
    assert_eq!(array.pretty_text().unwrap(), pretty);
    let object = array.array_item(2).unwrap().unwrap();
    assert_eq!(object.as_bytes(), &stored[18..]);
    let value = hex("20000000 10000001 76");
    assert_eq!(object.as_raw().get("k").unwrap().unwrap().as_bytes(), value);
}

#[test]
fn kinds_of_the_page() {
    for (stored, kind) in [
        ("", Err(Error::InvalidEOF)),
        ("800000", Err(Error::InvalidEOF)),
        ("e0000000", Err(Error::InvalidJsonb)),
        ("9fffffff", Ok(Kind::Array(536_870_911))),
        ("40000003", Ok(Kind::Object(3))),
        ("20000000", Err(Error::InvalidEOF)),
        ("20000000 50000000", Err(Error::InvalidJsonb)),
        ("20000000 00000000", Ok(Kind::Null)),
        ("20000000 10000009", Ok(Kind::String)),
        ("20000000 20000009", Ok(Kind::Number)),
        ("20000000 30000000", Ok(Kind::Boolean)),
        ("20000000 40000000", Ok(Kind::Boolean)),
        ("20000000 60000009", Ok(Kind::Extension)),
    ] {
        assert_eq!(bytes::kind(&hex(stored)), kind, "{stored}");
    }
}

#[test]
fn numbers_of_the_page() {
    for (payload, digits, scale) in [
        ("00", 0, 0),
        ("40 00", 0, 0),
        ("40 ff", -1, 0),
        ("50 00ff", 255, 0),
        ("50 ffffffffffffffff", u64::MAX.into(), 0),
        ("70 ffffffffffffff6a 02", -150, 2),
        ("70 00000000000000010000000000000005 00", (1 << 64) + 5, 0),
        (
            "70 00000000000000010000000000000005 ab ff",
            (1 << 64) + 5,
            255,
        ),
        ("70 80000000000000000000000000000000 00", i128::MIN, 0),
    ] {
        let payload = hex(payload);
        let entry = 0x2000_0000 + payload.len() as u32;
        let scalar = [&hex("20000000"), &entry.to_be_bytes()[..], &payload].concat();
        let array = [&hex("80000001"), &entry.to_be_bytes()[..], &payload].concat();
        let number = Number { digits, scale };
        assert_eq!(RawJsonb::new(&scalar).unwrap().as_number(), Ok(number));
        let mut items = RawJsonb::new(&array).unwrap().items().unwrap();
        assert!(matches!(items.next(), Some(Node::Number(item)) if item == number));
    }
}

#[test]
fn numbers_past_64_bits_are_named() {
    for (text, right) in [
        ("9223372036854775807", Ok(i64::MAX)),
        ("-9223372036854775808", Ok(i64::MIN)),
        ("9223372036854775808", Err(Error::PastRange)),
        ("1.0", Err(Error::PastRange)),
        ("true", Err(Error::OtherKind)),
        ("[1]", Err(Error::OtherKind)),
    ] {
        assert_eq!(parsed(text).as_raw().as_i64(), right, "{text}");
    }
}

#[test]
fn floating_point_is_refused() {
    let double = hex("20000000 20000009 60 3ff8000000000000");
    assert_eq!(RawJsonb::new(&double), Err(Error::InvalidJsonb));
    assert_eq!(OwnedJsonb::new(double), Err(Error::InvalidJsonb));
}

#[test]
fn refused_texts_are_named() {
    let json = |offset| Error::InvalidJson { offset };
    let number = |offset| Error::BadNumber { offset };
    let past_128_bits = "170141183460469231731687303715884105728";
    for (text, error, shown) in [
        ("", json(0), "InvalidJson at byte 0"),
        ("[1,]", json(3), "InvalidJson at byte 3"),
        ("[1", json(2), "InvalidJson at byte 2"),
        ("1 2", json(2), "InvalidJson at byte 2"),
        (r#"["é" 1]"#, json(6), "InvalidJson at byte 6"),
        (r#""\ud800""#, json(7), "InvalidJson at byte 7"),
        ("1e5", number(1), "BadNumber at byte 1"),
        (r#"{"a":1e5}"#, number(6), "BadNumber at byte 6"),
        (r#"{"a": [1, 2.5e-7]}"#, number(13), "BadNumber at byte 13"),
        (past_128_bits, number(38), "BadNumber at byte 38"),
        ("[1.]", number(3), "BadNumber at byte 3"),
        ("01", json(1), "InvalidJson at byte 1"),
        // The exponent comes before the comma that is one too many.
        ("[1e5,]", number(2), "BadNumber at byte 2"),
        ("[[[0]]]", Error::TooDeep, "TooDeep"),
    ] {
        assert_eq!(OwnedJsonb::parse(text, 2), Err(error), "{text}");
        assert_eq!(error.to_string(), shown);
    }
    assert_eq!(json(3).offset(), Some(3));
    assert_eq!(number(4).offset(), Some(4));
    assert_eq!(Error::TooDeep.offset(), None);
    assert_eq!(OwnedJsonb::parse(b"\"\xff\"", 2), Err(Error::InvalidUtf8));
    // The last value of a key stays, and brackets in strings are no levels.
    assert_eq!(
        OwnedJsonb::parse(r#"{"a":1,"a":2}"#, 1).unwrap(),
        parsed(r#"{"a":2}"#)
    );
    assert!(OwnedJsonb::parse(r#"["[[["]"#, 1).is_ok());
}

#[test]
fn a_look_up_in_any_bytes_checks_the_value_alone() {
    // {"k": .., "l": null}, in which the value of k is a container of no kind.
    let stored = hex("40000002 10000001 10000001 50000004 00000000 6b 6c e0000000");
    assert_eq!(RawJsonb::new(&stored), Err(Error::InvalidJsonb));
    assert_eq!(bytes::get(&stored, "k"), Err(Error::InvalidJsonb));
    assert_eq!(bytes::get(&stored, "l"), Ok(Some(parsed("null"))));
    assert_eq!(bytes::get(&stored, "m"), Ok(None));
    assert_eq!(bytes::get(&stored[..12], "k"), Err(Error::InvalidJsonb));
    assert_eq!(bytes::get(&stored[..2], "k"), Err(Error::InvalidEOF));
    assert_eq!(bytes::get(b"\x80\x00\x00\x00", "k"), Ok(None));
}

#[test]
fn extension_values_of_the_page() {
    let (binary, opaque) = (ExtensionValue::Binary, |tag, data| ExtensionValue::Opaque {
        tag,
        data,
    });
    let tz = |value, offset| ExtensionValue::TimestampTz { value, offset };
    let interval = |months, days, micros| ExtensionValue::Interval {
        months,
        days,
        micros,
    };
    for (payload, value, text) in [
        ("00 abcd", binary(&[0xab, 0xcd]), "abcd"),
        ("00", binary(&[]), ""),
        ("10 fffffffe", ExtensionValue::Date(-2), "-2"),
        ("20 0000000000000007", ExtensionValue::Timestamp(7), "7"),
        ("30 0000000000000007 fffff1f0", tz(7, -3600), "7 -3600"),
        (
            "40 00000003 00000001 ffffffffffffffff",
            interval(3, 1, -1),
            "3 1 -1",
        ),
        ("50 ff", opaque(0x50, &[0xff]), "50ff"),
        ("f0", opaque(0xf0, &[]), "f0"),
    ] {
        let payload = hex(payload);
        let entry = 0x6000_0000 + payload.len() as u32;
        let stored = [&hex("20000000"), &entry.to_be_bytes()[..], &payload].concat();
        let document = OwnedJsonb::of(value).unwrap();
        assert_eq!(document.as_bytes(), stored);
        assert_eq!(document.as_raw().as_extension(), Ok(value));
        assert_eq!(document.to_string(), format!("\"{text}\""));
    }
    let old = hex("20000000 6000000a 30 0000000000000007 ff");
    let old = RawJsonb::new(&old).unwrap();
    assert_eq!(old.as_extension(), Ok(tz(7, -3600)));
    assert!(!old.is_canonical());
    assert_eq!(
        old.to_canonical().unwrap(),
        OwnedJsonb::of(tz(7, -3600)).unwrap()
    );
    let unknown = OwnedJsonb::of(opaque(0x45, &[]));
    assert_eq!(unknown, Err(Error::InvalidJsonbExtension));
}

#[test]
fn keys_of_the_page() {
    for (text, key) in [
        (
            r#"{"id":3,"town":"Oslo"}"#,
            "b0 696401 8206 746f776e01 a04f736c6f01 00",
        ),
        (r#"[true,-12.05,"a\u0000"]"#, "c0 21 7de6f5 a061020101 00"),
        (
            r#"{"at":0.005,"n":[12345,null]}"#,
            "b0 617401 817f64 6e01 c0 84032f5a d0 00 00",
        ),
    ] {
        assert_eq!(
            parsed(text).as_raw().key().unwrap().into_bytes(),
            hex(key),
            "{text}"
        );
    }
    assert_eq!(bytes::key(&[]).unwrap().into_bytes(), hex("ff 01"));
}

#[test]
fn kinds_are_in_the_order_of_the_page() {
    let date = OwnedJsonb::of(ExtensionValue::Date(0)).unwrap();
    let rising = [
        "false",
        "true",
        "-1",
        "2",
        "10",
        r#""""#,
        r#""a""#,
        "{}",
        r#"{"a":1}"#,
        "[]",
    ];
    let mut documents = vec![date];
    documents.extend(
        rising
            .into_iter()
            .chain(["[0]", "[0,0]", "[1]", "null"])
            .map(parsed),
    );
    assert!(documents.windows(2).all(|pair| pair[0] < pair[1]));
    assert!(bytes::compare(documents.last().unwrap().as_bytes(), b"").is_lt());
    assert_eq!(parsed("5"), parsed("5.0"));
}

#[test]
fn documents_may_be_sent_and_shared() {
    fn is_shared<T: Send + Sync>() {}
    is_shared::<RawJsonb<'_>>();
    is_shared::<OwnedJsonb>();
    is_shared::<ComparableKey>();
    is_shared::<(Items<'_>, Members<'_>)>();
    is_shared::<Error>();
    let row = parsed(r#"{"id":7}"#);
    let ids = std::thread::scope(|scope| {
        let read = || row.as_raw().get("id").unwrap().unwrap().as_raw().as_i64();
        let threads: Vec<_> = (0..4).map(|_| scope.spawn(read)).collect();
        threads
            .into_iter()
            .map(|thread| thread.join().unwrap())
            .collect::<Vec<_>>()
    });
    assert_eq!(ids, [Ok(7); 4]);
}

#[test]
#[cfg(feature = "std")]
fn errors_are_those_of_the_standard_library() {
    let error: Box<dyn std::error::Error> = Error::TooDeep.into();
    assert_eq!(error.to_string(), "TooDeep");
}
