//! Paths of SQL/JSON: what they give, variables, silence, and how texts are refused.

use kohiblad::{Error, JsonPath, OwnedJsonb, PathError, MAX_DEPTH};
use std::collections::HashSet;
use std::thread;

fn parsed(text: &str) -> OwnedJsonb {
    OwnedJsonb::parse(text, MAX_DEPTH).unwrap()
}

fn path(text: &str) -> JsonPath {
    text.parse().unwrap()
}

/// The JSON texts of the values that a path gives.
fn given(row: &OwnedJsonb, text: &str) -> Result<Vec<String>, Error> {
    let values = path(text).query(row.as_raw())?;
    let texts = values
        .iter()
        .map(|it| OwnedJsonb::of(it).unwrap().to_string());
    Ok(texts.collect())
}

#[test]
fn all_values_come_in_their_order() {
    let row = parsed(r#"{"b":[1,[2,3],{"c":4}],"a":{"c":5}}"#);
    for (text, values) in [
        ("$", &[r#"{"a":{"c":5},"b":[1,[2,3],{"c":4}]}"#][..]),
        ("$.*", &[r#"{"c":5}"#, r#"[1,[2,3],{"c":4}]"#]),
        ("$.b[*]", &["1", "[2,3]", r#"{"c":4}"#]),
        ("$.b[0 to last - 1]", &["1", "[2,3]"]),
        ("$.b[1][last]", &["3"]),
        ("$.**.c", &["5", "4", "4"]),
        ("$.b ? (@ > 0)", &["1", "[2,3]"]),
        ("$.b.size() * 2", &["6"]),
        ("$.\"b\"[7]", &[]),
        ("$.a.c == 5", &["true"]),
    ] {
        assert_eq!(given(&row, text).unwrap(), values, "{text}");
        let first = path(text).query_first(row.as_raw()).unwrap();
        assert_eq!(
            first.map(|it| it.to_string()).as_deref(),
            values.first().copied()
        );
        assert_eq!(path(text).exists(row.as_raw()), Ok(!values.is_empty()));
    }
    let many = parsed(&format!("[{}0]", "0,".repeat(999)));
    let values = path("$[*]").query(many.as_raw()).unwrap();
    assert_eq!((values.len(), values.is_empty()), (1000, false));
    assert_eq!(values.into_iter().count(), 1000);
    assert!(path("$.a").query(many.as_raw()).unwrap().is_empty());
}

#[test]
fn values_of_two_kinds_do_not_compare() {
    let rows = [r#"{"t":"n/a"}"#, r#"{"t":950}"#, r#"{"t":null}"#].map(parsed);
    let told = |text| -> Vec<_> {
        let truth = |row: &OwnedJsonb| path(text).matches(row.as_raw()).unwrap();
        rows.iter().map(truth).collect()
    };
    assert_eq!(told("$.t > 890"), [None, Some(true), Some(false)]);
    assert_eq!(told("$.t != null"), [Some(true), Some(true), Some(false)]);
}

#[test]
fn tests_are_of_one_value() {
    let row = parsed(r#"{"lines": [{"price": 3}, {"price": 5.0}], "note": null}"#);
    let row = row.as_raw();
    for (text, truth) in [
        ("$.lines[*].price > 4", Ok(Some(true))),
        ("$.lines[*].price > 9", Ok(Some(false))),
        ("$.note", Ok(None)),
        ("$.lines", Err(Error::BooleanRequired)),
        ("$.none", Err(Error::BooleanRequired)),
        ("strict $.none", Err(Error::MemberNotFound)),
    ] {
        assert_eq!(path(text).matches(row), truth, "{text}");
        let silent = path(text).silent().matches(row);
        assert_eq!(silent, truth.or(Ok(None)), "{text}");
    }
    assert_eq!(
        path("strict $.none").exists(row),
        Err(Error::MemberNotFound)
    );
    assert_eq!(path("strict $.none").silent().exists(row), Ok(None));
    assert_eq!(path("$.lines").silent().exists(row), Ok(Some(true)));
}

#[test]
fn variables_are_members_of_an_object() {
    let row = parsed("[3, 5, 7]");
    let row = row.as_raw();
    let path = path("$[*] ? (@ > $least)");
    let least = OwnedJsonb::object_of([("least", 4)]).unwrap();
    let with_least = path.with(least.as_raw());
    assert_eq!(with_least.query(row).unwrap().len(), 2);
    assert_eq!(with_least.exists(row), Ok(Some(true)));
    let first = with_least.silent().query_first(row).unwrap().unwrap();
    assert_eq!(first.to_string(), "5");
    for variables in [parsed("{}"), parsed(r#"{"most": 4}"#)] {
        let refused = path.with(variables.as_raw()).silent().query(row);
        assert_eq!(refused.err(), Some(Error::UndefinedVariable));
    }
    assert_eq!(path.query(row).err(), Some(Error::UndefinedVariable));
    for variables in [parsed("[]"), parsed("5")] {
        let refused = path.with(variables.as_raw()).query(row);
        assert_eq!(refused.err(), Some(Error::OtherKind));
    }
}

#[test]
fn a_silent_path_keeps_what_came_before_an_error() {
    let row = parsed(r#"[-1, "a", -2]"#);
    let path = path("$[*].abs()");
    assert_eq!(path.query(row.as_raw()).err(), Some(Error::NonNumericItem));
    let values = path.silent().query(row.as_raw()).unwrap();
    assert_eq!(values.len(), 1);
    assert_eq!(values.first().unwrap().to_string(), "1");
    let shown = "[Number(Number { digits: 1, scale: 0 })]";
    assert_eq!(format!("{values:?}"), shown);
}

#[test]
fn paths_are_equal_by_what_they_ask() {
    let same = ["$.a[*]", "lax $.a [ * ]", "$.\"a\"[*] /* all */"].map(path);
    assert!(same.iter().all(|it| *it == same[0]));
    assert_eq!(same.iter().collect::<HashSet<_>>().len(), 1);
    assert_ne!(path("$.a"), path("strict $.a"));
    assert_eq!(same[1].text(), "lax $.a [ * ]");
    assert_eq!(same[1].to_string(), "$.\"a\"[*]");
    assert_eq!(format!("{:?}", same[1]), "JsonPath($.\"a\"[*])");
    assert_eq!(path("strict $.a+1").to_string(), "strict ($.\"a\" + 1)");
    assert_eq!(JsonPath::try_from("$.a"), Ok(path("$.a")));
}

#[test]
fn a_refused_text_shows_its_place() {
    for (text, offset, shown) in [
        (
            "$[0:2]",
            3,
            "$[0:2]\n   ^ expected `]` at byte 3, found `:`; the first two items are `[0 to 1]`",
        ),
        (
            "$..a",
            2,
            "$..a\n  ^ expected a key, `*`, `**` or a method at byte 2, found `.`; all levels are \
             `.**`",
        ),
        (
            "$.a.datetime(\"HH\")",
            13,
            "$.a.datetime(\"HH\")\n             ^ `.datetime()` at byte 13 is not read here",
        ),
    ] {
        let refused = JsonPath::parse(text).unwrap_err();
        assert_eq!(refused.error(), Error::InvalidPath { offset });
        assert_eq!(refused.offset(), Some(offset));
        assert_eq!(refused.to_string(), shown);
        assert!(format!("{refused:?}").contains(shown));
        let row = parsed("null");
        assert_eq!(row.as_raw().select(text).unwrap_err(), refused);
        let error = Error::from(refused);
        assert_eq!(error.name(), "OtherKind");
        let words = format!("the text is no path of SQL/JSON at byte {offset}");
        assert_eq!(error.to_string(), words);
    }
    let row = parsed("{}");
    let refused = row.as_raw().select("strict $.a").unwrap_err();
    assert_eq!(refused, PathError::from(Error::MemberNotFound));
    assert_eq!(
        (refused.to_string().as_str(), refused.offset()),
        ("MemberNotFound", None)
    );
}

/// A document of the greatest depth, and a path that nests deep, in a thread with so much stack.
fn in_thread<T: Send + 'static>(stack: usize, run: fn() -> T) -> T {
    let thread = thread::Builder::new().stack_size(stack);
    thread.spawn(run).unwrap().join().unwrap()
}

fn deep_path() -> String {
    let (open, close) = (" ? (exists(@".repeat(25), "))".repeat(25));
    format!("strict ${open}{close}")
}

#[test]
fn the_values_of_the_deepest_document_nest_one_level_deeper() {
    let values = in_thread(4 << 20, || {
        let row = parsed(&("[".repeat(MAX_DEPTH) + &"]".repeat(MAX_DEPTH)));
        let values = path(&deep_path()).query(row.as_raw()).unwrap();
        let first = OwnedJsonb::of(values.first().unwrap()).unwrap();
        assert!(first == row);
        values.len()
    });
    assert_eq!(values, 1);
}

#[test]
fn no_path_ends_a_thread() {
    let is_refused = in_thread(96 << 10, || {
        let refused = JsonPath::parse(&deep_path()).unwrap_err();
        refused.error() == Error::TooDeep && refused.to_string() == "TooDeep"
    });
    assert!(is_refused);
    // Less than a fourth of a test's own thread, or the C library may hand out the stack of one.
    let asked = in_thread(384 << 10, || {
        let nested = "[".repeat(300) + &"]".repeat(300);
        let row = parsed(&nested);
        let text = format!("strict ${}{}", " ? (exists(@".repeat(5), "))".repeat(5));
        path(&text).query(row.as_raw()).map(|values| values.len())
    });
    assert_eq!(asked, Err(Error::TooDeep));
}
