//! The lines of tests/lines at the top of the repository, which docs/CONFORMANCE.md describes: the
//! crate must answer them as the files say. Lines of calls that the crate does not have are left
//! out.

use std::fs;
use std::path::Path;

use kohiblad::{
    bytes, ComparableKey, Error, JsonPath, Kind, Node, OwnedJsonb, RawJsonb, MAX_DEPTH,
};

fn unhex(word: &str) -> Option<Vec<u8>> {
    let byte = |at| u8::from_str_radix(word.get(at..at + 2)?, 16).ok();
    let is_hex = word.len() % 2 == 0 && word.bytes().all(|it| it.is_ascii_hexdigit());
    is_hex.then(|| (0..word.len()).step_by(2).map(byte).collect())?
}

fn hex(bytes: impl AsRef<[u8]>) -> String {
    bytes
        .as_ref()
        .iter()
        .map(|byte| format!("{byte:02x}"))
        .collect()
}

/// A result as the programs answer it.
fn answer<T>(result: Result<T, Error>, shown: impl Fn(T) -> String) -> String {
    match result {
        Ok(value) => format!("ok {}", shown(value)),
        // To the programs a text with such a number is no JSON either.
        Err(Error::BadNumber { .. }) => "error InvalidJson".into(),
        Err(error) => format!("error {}", error.name()),
    }
}

fn document_answer(result: Result<OwnedJsonb, Error>) -> String {
    answer(result, hex)
}

fn key_answer(result: Result<ComparableKey, Error>) -> String {
    answer(result, hex)
}

fn kind_answer(bytes: &[u8]) -> String {
    answer(bytes::kind(bytes), |kind| match kind {
        Kind::Array(count) => format!("array {count}"),
        Kind::Object(count) => format!("object {count}"),
        scalar => format!("{scalar:?}").to_lowercase(),
    })
}

fn order_of(left: &[u8], right: &[u8]) -> String {
    format!("{:?}", bytes::compare(left, right)).to_lowercase()
}

/// An item: its variant, and the document of it, which keeps its payload as it is stored.
fn item_answer(node: Node<'_>, document: &OwnedJsonb) -> String {
    let variant = match node {
        Node::Null => "null",
        Node::Boolean(_) => "boolean",
        Node::Number(_) => "number",
        Node::String(_) => "string",
        Node::Extension(_) => "extension",
        Node::Container(_) => "raw",
    };
    format!("{variant} {}", hex(document))
}

/// A walk over parts, of which there are as many as `len` says.
fn walk_answer(parts: Option<Vec<String>>) -> String {
    parts.map_or("none".into(), |parts| {
        let len = parts.len();
        let shown: Vec<_> = [format!("len {len}")].into_iter().chain(parts).collect();
        format!("{} | end {len}", shown.join(" | "))
    })
}

fn items_answer(raw: RawJsonb<'_>) -> String {
    let item = |(index, node)| item_answer(node, &raw.array_item(index).unwrap().unwrap());
    walk_answer(
        raw.items()
            .map(|items| items.enumerate().map(item).collect()),
    )
}

fn pairs_answer(raw: RawJsonb<'_>, with_keys: bool) -> String {
    let pair = |(index, (key, node)): (usize, (&str, Node<'_>))| {
        let (same_key, value) = raw.object_member(index).unwrap().unwrap();
        assert_eq!(key, same_key);
        let item = item_answer(node, &value);
        if with_keys {
            format!("{} {item}", hex(key))
        } else {
            item
        }
    };
    walk_answer(
        raw.members()
            .map(|members| members.enumerate().map(pair).collect()),
    )
}

fn find_answer(raw: RawJsonb<'_>, name: &str) -> String {
    match raw.find(name) {
        Some(node) => item_answer(node, &raw.get(name).unwrap().unwrap()),
        None => "none".into(),
    }
}

fn array_answer(items: &[Vec<u8>]) -> String {
    let items: Result<Vec<_>, _> = items.iter().map(|item| RawJsonb::new(item)).collect();
    document_answer(items.and_then(OwnedJsonb::build_array))
}

fn object_answer(words: &[&str]) -> Option<String> {
    let mut pairs = Vec::new();
    for word in words {
        let (key, value) = word.split_once('=')?;
        pairs.push((String::from_utf8(unhex(key)?).ok()?, unhex(value)?));
    }
    // The crate builds of documents alone.
    let documents: Option<Vec<_>> = pairs
        .iter()
        .map(|(key, value)| Some((key, RawJsonb::new(value).ok()?)))
        .collect();
    documents.map(|pairs| document_answer(OwnedJsonb::build_object(pairs)))
}

/// The crate's answer to a line of jsonb_probe, if it has one.
fn probe(line: &str) -> Option<String> {
    let mut words = line.split(' ');
    let command = words.next()?;
    let words: Vec<_> = words.collect();
    let command = command.strip_prefix("document_").unwrap_or(command);
    if command == "object_of" {
        return object_answer(&words);
    }
    if command == "array_of" {
        return Some(array_answer(
            &words
                .iter()
                .map(|it| unhex(it))
                .collect::<Option<Vec<_>>>()?,
        ));
    }
    let stored = unhex(words.first()?)?;
    let raw = RawJsonb::new(&stored);
    let text = |text: String| hex(text);
    match (command, &words[1..]) {
        ("is_document", []) => Some(raw.is_ok().to_string()),
        ("within", [depth]) => {
            let depth = depth.parse().ok().filter(|&depth| depth <= MAX_DEPTH)?;
            Some(RawJsonb::within(&stored, depth).is_ok().to_string())
        }
        ("is_canonical", []) => Some(raw.map_or(false, |raw| raw.is_canonical()).to_string()),
        ("to_canonical", []) => Some(document_answer(raw.and_then(|raw| raw.to_canonical()))),
        ("item_type", []) => Some(kind_answer(&stored)),
        ("key", []) => Some(key_answer(bytes::key(&stored))),
        ("cmp", [other]) => {
            let order = order_of(&stored, &unhex(other)?);
            let same = if order == "equal" {
                "same"
            } else {
                "different"
            };
            Some(format!("{order} {same}"))
        }
        ("to_string" | "display", []) => Some(answer(raw.ok()?.compact_text(), text)),
        ("to_pretty_string", []) => Some(answer(raw.ok()?.pretty_text(), text)),
        ("array", []) => Some(items_answer(raw.ok()?)),
        ("pairs", []) => Some(pairs_answer(raw.ok()?, true)),
        ("values", []) => Some(pairs_answer(raw.ok()?, false)),
        ("lookup", [name]) => Some(find_answer(
            raw.ok()?,
            &String::from_utf8(unhex(name)?).ok()?,
        )),
        _ => None,
    }
}

/// The crate's answer to a line of jsonb_cli, if it has one.
fn cli(line: &[u8]) -> Option<String> {
    if let Some(text) = line.strip_prefix(b"enc ") {
        return Some(document_answer(OwnedJsonb::parse(text, MAX_DEPTH)));
    }
    let line = std::str::from_utf8(line).ok()?;
    let (command, rest) = line.split_once(' ')?;
    let words: Option<Vec<_>> = rest.split(' ').map(unhex).collect();
    let words = words?;
    let raw = RawJsonb::new(&words[0]);
    match (command, words.len()) {
        ("dec", 1) => Some(answer(raw.and_then(|raw| raw.compact_text()), |text| text)),
        ("pretty", 1) => Some(answer(raw.and_then(|raw| raw.pretty_text()), hex)),
        ("type", 1) => Some(kind_answer(&words[0])),
        ("canon", 1) => Some(document_answer(raw.and_then(|raw| raw.to_canonical()))),
        ("cmp", 2) => Some(format!("ok {}", order_of(&words[0], &words[1]))),
        ("arr", _) => Some(array_answer(&words)),
        _ => None,
    }
}

/// Compares the answers to all lines of a program's files, and returns how many there were.
fn compared(program: &str, mine: impl Fn(&[u8]) -> Option<String>) -> usize {
    let folder = Path::new(env!("CARGO_MANIFEST_DIR"))
        .join("../../tests/lines")
        .join(program);
    let mut count = 0;
    for entry in fs::read_dir(folder).unwrap() {
        let path = entry.unwrap().path();
        if path.extension() != Some("in".as_ref()) {
            continue;
        }
        let (lines, answers) = (
            fs::read(&path).unwrap(),
            fs::read(path.with_extension("out")),
        );
        let answers = answers.unwrap();
        let pairs = lines
            .split(|&byte| byte == b'\n')
            .zip(answers.split(|&byte| byte == b'\n'));
        for (line, right) in pairs {
            let right = String::from_utf8_lossy(right);
            if ["error BadCommand", "error BadHex", "error NoDocument"].contains(&&*right) {
                continue;
            }
            let mine = match mine(line) {
                Some(mine) => mine,
                None => continue,
            };
            // A look-up's answer begins with the number of words that it read.
            let right = match right.strip_prefix("reads ") {
                Some(rest) => rest.split_once(' ').unwrap().1,
                None => &right,
            };
            assert_eq!(
                mine,
                right,
                "{}: {}",
                path.display(),
                String::from_utf8_lossy(line)
            );
            count += 1;
        }
    }
    count
}

#[test]
fn lines_of_jsonb_probe() {
    let count = compared("jsonb_probe", |line| probe(std::str::from_utf8(line).ok()?));
    assert!(count > 2000, "{count}");
}

#[test]
fn lines_of_jsonb_cli() {
    let count = compared("jsonb_cli", cli);
    assert!(count > 1500, "{count}");
}

/// The error of a path that ends with this SQLSTATE.
fn error_of_state(state: &str) -> Error {
    match state {
        "2203A" => Error::MemberNotFound,
        "2203C" => Error::ObjectNotFound,
        "22039" => Error::ArrayNotFound,
        "22033" => Error::InvalidSubscript,
        "22036" => Error::NonNumericItem,
        "22038" => Error::SingletonRequired,
        "2203B" => Error::NumberNotFound,
        "22012" => Error::DivisionByZero,
        "42704" => Error::UndefinedVariable,
        other => panic!("no state of a path: {other}"),
    }
}

/// What PostgreSQL gave for paths of SQL/JSON.
#[test]
fn paths_give_what_postgresql_gave() {
    let examples = Path::new(env!("CARGO_MANIFEST_DIR")).join("../../tests/paths/examples.txt");
    let mut asked = 0;
    for line in fs::read_to_string(examples).unwrap().lines() {
        if line.is_empty() || line.starts_with('#') {
            continue;
        }
        let mut cells = line.split('\t');
        let mut cell = || cells.next().unwrap();
        let row = OwnedJsonb::parse_with_exponents(cell(), 64).unwrap();
        let path = JsonPath::parse(cell()).unwrap();
        let wanted = OwnedJsonb::parse_with_exponents(cell(), 64).unwrap();
        let error = cells.next().map(error_of_state);
        let array = |values: kohiblad::Values| OwnedJsonb::array_of(values.iter()).unwrap();
        let silent = path.silent().query(row.as_raw()).map(array);
        let answer = path.query(row.as_raw()).map(array);
        match error {
            None => assert_eq!(answer, Ok(wanted.clone()), "{line}"),
            Some(error) => assert_eq!(answer, Err(error), "{line}"),
        }
        match error {
            Some(Error::UndefinedVariable) => assert_eq!(silent, answer, "{line}"),
            _ => assert_eq!(silent, Ok(wanted), "{line}"),
        }
        asked += 1;
    }
    assert!(asked > 30);
}
