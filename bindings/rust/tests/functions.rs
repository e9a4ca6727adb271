//! Containment, edits by path, concatenation, merge patches, nulls taken out and index keys.

#[allow(dead_code)]
mod model;

use kohiblad::{Error, ExtensionValue, Node, OwnedJsonb, Path, RawJsonb, MAX_DEPTH};
use model::{Generator, Tree};
use std::thread;

fn parsed(text: &str) -> OwnedJsonb {
    OwnedJsonb::parse(text, MAX_DEPTH).unwrap()
}

fn nested(levels: usize, open: &str, close: &str) -> OwnedJsonb {
    parsed(&(open.repeat(levels) + "0" + &close.repeat(levels)))
}

#[test]
fn containment_is_by_value() {
    let contains = |left, right| {
        let right = parsed(right);
        parsed(left).as_raw().contains(right.as_raw()).unwrap()
    };
    for (left, right) in [
        (r#"{"a":1,"b":[1,2]}"#, r#"{"b":[2]}"#),
        (r#"{"a":1}"#, "{}"),
        ("[1,[2,3]]", "[[3]]"),
        ("[1,2]", "2"),
        ("5", "5.0"),
        ("[1]", "[1,1]"),
    ] {
        assert!(contains(left, right), "{left} {right}");
    }
    for (left, right) in [
        (r#"{"a":1}"#, r#"{"a":2}"#),
        ("[[1,2]]", "[1]"),
        ("2", "[2]"),
        ("[]", "{}"),
        (r#"{"a":[1]}"#, r#"{"a":1}"#),
    ] {
        assert!(!contains(left, right), "{left} {right}");
    }
}

#[test]
fn existence_is_of_keys_and_texts() {
    let exists = |text, key| parsed(text).as_raw().exists(key);
    assert!(exists(r#"{"a":1}"#, "a") && exists(r#"["a"]"#, "a") && exists(r#""a""#, "a"));
    assert!(!exists(r#"{"b":"a"}"#, "a") && !exists(r#"[["a"]]"#, "a") && !exists("1", "1"));
    assert!(exists(r#"{"":0,"é":1}"#, "é") && exists(r#"{"":0}"#, ""));
}

#[test]
fn some_and_all_of_several_keys() {
    let names = ["", "a", "b", "é", "zz"];
    for text in [
        r#"{"a":1,"b":"zz","é":[]}"#,
        r#"["a",["b"],"",1,"a"]"#,
        r#""b""#,
        "{}",
        "null",
        r#"{"":0,"a":0,"b":0,"é":0,"zz":0}"#,
    ] {
        let document = parsed(text);
        let row = document.as_raw();
        for chosen in 0..1 << names.len() {
            let some = || {
                let asked = names.iter().enumerate();
                let asked = asked.filter(move |(place, _)| chosen >> place & 1 == 1);
                asked.map(|(_, name)| *name).rev()
            };
            let any = some().any(|name| row.exists(name));
            let all = some().all(|name| row.exists(name));
            assert_eq!(row.exists_any(some()), Ok(any), "{text} {chosen}");
            assert_eq!(row.exists_all(some()), Ok(all), "{text} {chosen}");
            assert_eq!(row.exists_all(some().chain(some())), Ok(all));
        }
    }
}

fn text_of(node: Node<'_>) -> String {
    OwnedJsonb::of(node).unwrap().to_string()
}

#[test]
fn paths_lead_to_values_in_place() {
    let row = parsed(r#"{"a":{"b":[1,"x",[2,3]]},"":null}"#);
    let at = |path: &Path| row.as_raw().get_path(path).unwrap().map(text_of);
    let b = || Path::new().key("a").key("b");
    assert_eq!(at(&Path::new()), Some(row.to_string()));
    for (path, text) in [
        (b().index(1), r#""x""#),
        (b().index(-1), "[2,3]"),
        (b().index(-1).index(0), "2"),
        (Path::new().key(""), "null"),
    ] {
        assert_eq!(at(&path).as_deref(), Some(text), "{path}");
    }
    for nowhere in [
        b().index(3),
        b().index(-4),
        b().key("b"),
        b().index(1).index(0),
    ] {
        assert_eq!(at(&nowhere), None, "{nowhere}");
    }
}

#[test]
fn older_paths_select_values_in_stored_order() {
    let row = parsed(r#"{"b":[1,[2,3],{"c":4}],"a":{"c":5}}"#);
    let selected = |path| -> Result<Vec<String>, Error> {
        let nodes = row.as_raw().select_within(path, usize::MAX)?;
        Ok(nodes.unwrap().into_iter().map(text_of).collect())
    };
    for (path, texts) in [
        ("$", &[r#"{"a":{"c":5},"b":[1,[2,3],{"c":4}]}"#][..]),
        ("$.*", &[r#"{"c":5}"#, r#"[1,[2,3],{"c":4}]"#]),
        ("$.b[*]", &["1", "[2,3]", r#"{"c":4}"#]),
        ("$.b[0 to #-2]", &["1", "[2,3]"]),
        ("$.b[#-2][*]", &["2", "3"]),
        ("$.*.c", &["5"]),
        ("$.b[*].c", &["4"]),
        ("$.\"b\"[7]", &[]),
    ] {
        assert_eq!(selected(path).unwrap(), texts, "{path}");
    }
    for path in ["", "b", "$.", "$[", "$[x]", "$[0 to]", "$.\"b"] {
        assert_eq!(selected(path), Err(Error::OtherKind), "{path}");
    }
    let many = parsed(&format!("[{}0]", "0,".repeat(999)));
    let all = many.as_raw().select_within("$[*]", 1001).unwrap();
    assert_eq!(all.unwrap().len(), 1000);
    assert!(many.as_raw().select_within("$[*]", 999).unwrap().is_none());
}

#[test]
fn edits_change_what_is_at_the_path() {
    let row = parsed(r#"{"a":{"b":[1,2,3]},"c":1.50}"#);
    let row = row.as_raw();
    let b = || Path::new().key("a").key("b");
    for (edited, text) in [
        (
            row.set(&Path::new().key("c"), "x"),
            r#"{"a":{"b":[1,2,3]},"c":"x"}"#,
        ),
        (
            row.set(&Path::new().key("d"), Node::Null),
            r#"{"a":{"b":[1,2,3]},"c":1.50,"d":null}"#,
        ),
        (
            row.set(&b().index(-1), 9),
            r#"{"a":{"b":[1,2,9]},"c":1.50}"#,
        ),
        (
            row.set(&b().index(7), 9),
            r#"{"a":{"b":[1,2,3,9]},"c":1.50}"#,
        ),
        (
            row.set(&b().index(-7), 9),
            r#"{"a":{"b":[9,1,2,3]},"c":1.50}"#,
        ),
        (
            row.insert(&b().index(1), true),
            r#"{"a":{"b":[1,true,2,3]},"c":1.50}"#,
        ),
        (
            row.insert(&b().index(3), 4),
            r#"{"a":{"b":[1,2,3,4]},"c":1.50}"#,
        ),
        (row.remove(&b().index(0)), r#"{"a":{"b":[2,3]},"c":1.50}"#),
        (row.remove(&Path::new().key("a")), r#"{"c":1.50}"#),
        (row.set(&Path::new(), 5), "5"),
    ] {
        assert_eq!(edited.unwrap().to_string(), text);
    }
    for unchanged in [
        row.set(&Path::new().key("x").key("y"), 1),
        row.set(&Path::new().index(0), 1),
        row.set(&b().key("x"), 1),
        row.set(&Path::new().key("c").key("x"), 1),
        row.insert(&Path::new().key("c"), 1),
        row.insert(&Path::new(), 1),
        row.remove(&b().index(3)),
        row.remove(&Path::new().key("x")),
        row.remove(&Path::new()),
    ] {
        assert_eq!(unchanged.unwrap().as_bytes(), row.as_bytes());
    }
}

#[test]
fn values_keep_what_they_are() {
    let date = ExtensionValue::Date(20_000);
    let row = parsed("{}")
        .as_raw()
        .set(&Path::new().key("born"), date)
        .unwrap();
    let born = row.as_raw().get("born").unwrap().unwrap();
    assert_eq!(born.as_raw().as_extension(), Ok(date));
    let row = row.as_raw().set(&Path::new().key("again"), &born).unwrap();
    assert!(matches!(
        row.as_raw().find("again"),
        Some(Node::Extension(_))
    ));
}

#[test]
fn concatenation_joins_members_and_items() {
    let concat = |left, right| {
        let joined = parsed(left).as_raw().concat(parsed(right).as_raw());
        joined.unwrap().to_string()
    };
    assert_eq!(concat(r#"{"a":1}"#, r#"{"a":2,"b":3}"#), r#"{"a":2,"b":3}"#);
    assert_eq!(concat("[1]", "[2]"), "[1,2]");
    assert_eq!(concat("1", "[2]"), "[1,2]");
    assert_eq!(concat(r#"{"a":1}"#, "null"), r#"[{"a":1},null]"#);
}

/// RFC 7396, appendix A.
#[test]
fn members_are_picked_by_their_keys() {
    let row = parsed(r#"{"":1,"a":[2],"b":{"c":3}}"#);
    let row = row.as_raw();
    for (names, picked, rest) in [
        (&[][..], "{}", r#"{"":1,"a":[2],"b":{"c":3}}"#),
        (&["b", ""], r#"{"":1,"b":{"c":3}}"#, r#"{"a":[2]}"#),
        (&["a", "a", "c"], r#"{"a":[2]}"#, r#"{"":1,"b":{"c":3}}"#),
    ] {
        let names = || names.iter().copied();
        assert_eq!(row.pick(names()).unwrap().to_string(), picked);
        assert_eq!(row.without(names()).unwrap().to_string(), rest);
    }
    let array = parsed("[1,[2]]");
    assert_eq!(array.as_raw().pick(["a"]).unwrap(), array);
    assert_eq!(array.as_raw().without(["a"]).unwrap(), array);
    let keys = row.object_keys().unwrap().unwrap();
    assert_eq!(keys.to_string(), r#"["","a","b"]"#);
    assert_eq!(array.as_raw().object_keys(), Ok(None));
}

#[test]
fn arrays_are_sets_in_which_equal_items_count() {
    for (left, right, distinct, both, rest) in [
        ("[1,2,1.0,2]", "[2,2.0,2]", "[1,2]", "[2,2]", "[1,1.0]"),
        ("[[1],[1]]", "[[1.0]]", "[[1]]", "[[1]]", "[[1]]"),
        (
            r#"["a",null]"#,
            r#""a""#,
            r#"["a",null]"#,
            r#"["a"]"#,
            "[null]",
        ),
        ("5", "[]", "[5]", "[]", "[5]"),
    ] {
        let (left, right) = (parsed(left), parsed(right));
        let (left, right) = (left.as_raw(), right.as_raw());
        assert_eq!(left.array_distinct().unwrap().to_string(), distinct);
        assert_eq!(left.array_intersection(right).unwrap().to_string(), both);
        assert_eq!(left.array_except(right).unwrap().to_string(), rest);
        assert_eq!(left.array_overlap(right), Ok(both != "[]"));
    }
    let deepest = nested(MAX_DEPTH, r#"{"a":"#, "}");
    assert_eq!(deepest.as_raw().array_distinct(), Err(Error::InvalidJsonb));
}

#[test]
fn keys_are_cut_and_of_members() {
    let row = parsed(r#"{"a":1,"b":"x"}"#);
    let row = row.as_raw();
    let (key, parts) = (row.key().unwrap(), [row.get("b").unwrap().unwrap()]);
    for room in 0..key.as_bytes().len() + 2 {
        let mut out = vec![9; room];
        assert_eq!(row.key_cut(&mut out), key.as_bytes().len());
        let cut = room.min(key.as_bytes().len());
        assert_eq!(out[..cut], key.as_bytes()[..cut]);
        assert!(out[cut..].iter().all(|&byte| byte == 9));
    }
    let mut wanted = parts[0].as_raw().key().unwrap().into_bytes();
    wanted.push(0);
    assert_eq!(row.member_key(["b", "c"]).unwrap().into_bytes(), wanted);
    assert!(parsed("5")
        .as_raw()
        .member_key([])
        .unwrap()
        .as_bytes()
        .is_empty());
}

#[test]
fn merge_patches_are_those_of_the_rfc() {
    for (target, patch, result) in [
        (r#"{"a":"b"}"#, r#"{"a":"c"}"#, r#"{"a":"c"}"#),
        (r#"{"a":"b"}"#, r#"{"b":"c"}"#, r#"{"a":"b","b":"c"}"#),
        (r#"{"a":"b"}"#, r#"{"a":null}"#, "{}"),
        (r#"{"a":"b","b":"c"}"#, r#"{"a":null}"#, r#"{"b":"c"}"#),
        (r#"{"a":["b"]}"#, r#"{"a":"c"}"#, r#"{"a":"c"}"#),
        (r#"{"a":"c"}"#, r#"{"a":["b"]}"#, r#"{"a":["b"]}"#),
        (
            r#"{"a":{"b":"c"}}"#,
            r#"{"a":{"b":"d","c":null}}"#,
            r#"{"a":{"b":"d"}}"#,
        ),
        (r#"{"a":[{"b":"c"}]}"#, r#"{"a":[1]}"#, r#"{"a":[1]}"#),
        (r#"["a","b"]"#, r#"["c","d"]"#, r#"["c","d"]"#),
        (r#"{"a":"b"}"#, r#"["c"]"#, r#"["c"]"#),
        (r#"{"a":"foo"}"#, "null", "null"),
        (r#"{"a":"foo"}"#, r#""bar""#, r#""bar""#),
        (r#"{"e":null}"#, r#"{"a":1}"#, r#"{"a":1,"e":null}"#),
        ("[1,2]", r#"{"a":"b","c":null}"#, r#"{"a":"b"}"#),
        ("{}", r#"{"a":{"bb":{"ccc":null}}}"#, r#"{"a":{"bb":{}}}"#),
    ] {
        let merged = parsed(target).as_raw().merge_patch(parsed(patch).as_raw());
        assert_eq!(merged.unwrap().to_string(), result, "{target} {patch}");
    }
}

#[test]
fn members_that_are_null_are_taken_out() {
    for (text, result) in [
        (r#"{"a":null,"b":1}"#, r#"{"b":1}"#),
        (
            r#"{"a":{"b":null,"c":[null,{"d":null}]}}"#,
            r#"{"a":{"c":[null,{}]}}"#,
        ),
        ("[null]", "[null]"),
        ("null", "null"),
    ] {
        let stripped = parsed(text).as_raw().strip_nulls().unwrap();
        assert_eq!(stripped.to_string(), result, "{text}");
    }
}

#[test]
fn results_nest_no_deeper_than_documents() {
    let arrays = nested(MAX_DEPTH, "[", "]");
    let objects = nested(MAX_DEPTH, "{\"a\":", "}");
    let less = nested(MAX_DEPTH - 1, "{\"a\":", "}");
    let empty = parsed("{}");
    let at = Path::new().key("a");
    let set = |value: RawJsonb<'_>| empty.as_raw().set(&at, value);
    assert_eq!(set(less.as_raw()).unwrap(), objects);
    assert_eq!(set(objects.as_raw()), Err(Error::InvalidJsonb));
    // The value is looked at before the path.
    let nowhere = Path::new().key("x").key("y");
    assert_eq!(
        empty.as_raw().set(&nowhere, objects.as_raw()),
        Err(Error::InvalidJsonb)
    );
    assert_eq!(
        arrays.as_raw().concat(objects.as_raw()),
        Err(Error::InvalidJsonb)
    );
    assert!(arrays.as_raw().concat(less.as_raw()).is_ok());
    assert!(arrays.as_raw().concat(arrays.as_raw()).is_ok());
    let bottom = (0..MAX_DEPTH).fold(Path::new(), |path, _| path.key("a"));
    let edited = objects.as_raw().set(&bottom, 1).unwrap();
    assert!(RawJsonb::new(edited.as_bytes()).is_ok() && edited != objects);
    assert_eq!(
        objects.as_raw().set(&bottom, &empty),
        Err(Error::InvalidJsonb)
    );
    assert_eq!(objects.as_raw().contains(objects.as_raw()), Ok(true));
    assert_eq!(objects.as_raw().index_keys().unwrap().len(), 1);
    assert!(objects.as_raw().remove(&bottom).is_ok());
    assert_eq!(arrays.as_raw().strip_nulls().unwrap(), arrays);
    assert_eq!(objects.as_raw().strip_nulls().unwrap(), objects);
    // Patches of this depth take more stack than the thread of a test has.
    let patched = move || {
        for deepest in [&arrays, &objects] {
            for target in [deepest, &empty] {
                let merged = target.as_raw().merge_patch(deepest.as_raw()).unwrap();
                assert_eq!(merged, *deepest);
            }
        }
    };
    let thread = thread::Builder::new().stack_size(3 << 20);
    thread.spawn(patched).unwrap().join().unwrap();
}

#[test]
fn paths_are_documents() {
    let path = Path::new().key("a\"b").index(-1).index(i64::MAX).key("");
    assert_eq!(path.to_string(), r#"["a\"b",-1,9223372036854775807,""]"#);
    assert_eq!(format!("{path:?}"), format!("Path({path})"));
    assert_eq!(Path::default().to_string(), "[]");
    // A path of many steps leads nowhere.
    let long = (0..5000).fold(Path::new(), |path, _| path.index(0));
    let row = parsed("[0]");
    assert_eq!(row.as_raw().set(&long, 1).unwrap(), row);
}

fn document(tree: &Tree) -> OwnedJsonb {
    OwnedJsonb::new(tree.document()).expect("the model's document is one")
}

fn is_contained(wanted: &Tree, tree: &Tree) -> bool {
    match (wanted, tree) {
        (Tree::Array(wanted), Tree::Array(items)) => wanted
            .iter()
            .all(|one| items.iter().any(|item| is_contained(one, item))),
        (Tree::Object(wanted), Tree::Object(members)) => wanted
            .iter()
            .all(|(key, one)| members.get(key).map_or(false, |it| is_contained(one, it))),
        _ => wanted == tree,
    }
}

/// Some of the tree, which mostly is contained in it.
fn some_of(tree: &Tree, generator: &mut Generator) -> Tree {
    match tree {
        _ if generator.below(20) == 0 => generator.tree(1),
        Tree::Array(items) => {
            let mut kept = Vec::new();
            for item in items.iter().rev() {
                if generator.below(3) > 0 {
                    kept.push(some_of(item, generator));
                }
            }
            Tree::Array(kept)
        }
        Tree::Object(members) => {
            let mut kept = members.clone();
            kept.retain(|_, _| generator.below(3) > 0);
            for value in kept.values_mut() {
                *value = some_of(value, generator);
            }
            Tree::Object(kept)
        }
        scalar => scalar.clone(),
    }
}

#[test]
fn random_documents_contain_what_the_model_contains() {
    let mut generator = Generator(51);
    let mut found = 0;
    for _ in 0..4000 {
        let tree = generator.tree(4);
        let wanted = match generator.below(3) {
            0 => generator.tree(3),
            _ => some_of(&tree, &mut generator),
        };
        let is_scalar = !matches!(wanted, Tree::Array(_) | Tree::Object(_));
        let is_item = matches!(&tree, Tree::Array(items) if is_scalar && items.contains(&wanted));
        let (row, part) = (document(&tree), document(&wanted));
        let is_found = row.as_raw().contains(part.as_raw()).unwrap();
        assert_eq!(
            is_found,
            is_item || is_contained(&wanted, &tree),
            "{row} {part}"
        );
        if is_found {
            let keys = row.as_raw().index_keys().unwrap();
            let wanted = part.as_raw().index_keys().unwrap();
            assert!(wanted.iter().all(|key| keys.contains(key)), "{row} {part}");
            found += 1;
        }
    }
    assert!(found > 1000, "{found}");
}

/// A step of a path: a key or an index.
#[derive(Clone, Debug)]
enum Step {
    Key(String),
    Index(i64),
}

/// A path that mostly leads somewhere.
fn some_path(tree: &Tree, generator: &mut Generator) -> Vec<Step> {
    let mut steps = Vec::new();
    let mut tree = tree;
    while generator.below(4) > 0 {
        match tree {
            Tree::Array(items) => {
                let count = items.len() as i64;
                let index = generator.below(2 * items.len() + 3) as i64 - count - 1;
                steps.push(Step::Index(index));
                let place = if index < 0 { count + index } else { index };
                match items.get(place as usize) {
                    Some(item) if place >= 0 => tree = item,
                    _ => break,
                }
            }
            Tree::Object(members) if !members.is_empty() && generator.below(5) > 0 => {
                let number = generator.below(members.len());
                let (key, value) = members.iter().nth(number).expect("there are so many");
                steps.push(Step::Key(key.clone()));
                tree = value;
            }
            _ => {
                steps.push(match generator.below(2) {
                    0 => Step::Key("new".into()),
                    _ => Step::Index(0),
                });
                break;
            }
        }
    }
    steps
}

/// The edit of the model: `None` removes.
fn edit(tree: &mut Tree, steps: &[Step], value: Option<&Tree>, inserts: bool) {
    let (first, rest) = match (steps.split_first(), value) {
        (Some(split), _) => split,
        (None, Some(value)) if !inserts => return *tree = value.clone(),
        (None, _) => return,
    };
    match (tree, first) {
        (Tree::Object(members), Step::Key(key)) => match (members.get_mut(key), value) {
            (Some(member), _) if !rest.is_empty() => edit(member, rest, value, inserts),
            (Some(_), None) => drop(members.remove(key)),
            (Some(member), Some(value)) if !inserts => *member = value.clone(),
            (None, Some(value)) if rest.is_empty() => {
                members.insert(key.clone(), value.clone());
            }
            _ => {}
        },
        (Tree::Array(items), Step::Index(index)) => {
            let count = items.len() as i64;
            let place = if *index < 0 { count + index } else { *index };
            let is_there = (0..count).contains(&place);
            let place = place.clamp(0, count) as usize;
            match value {
                _ if !rest.is_empty() && is_there => edit(&mut items[place], rest, value, inserts),
                None if is_there => drop(items.remove(place)),
                Some(value) if rest.is_empty() && is_there && !inserts => {
                    items[place] = value.clone();
                }
                Some(value) if rest.is_empty() => items.insert(place, value.clone()),
                _ => {}
            }
        }
        _ => {}
    }
}

#[test]
fn random_edits_are_those_of_the_model() {
    let mut generator = Generator(52);
    let mut changed = 0;
    for _ in 0..6000 {
        let tree = generator.tree(4);
        let steps = some_path(&tree, &mut generator);
        let path = steps.iter().fold(Path::new(), |path, step| match step {
            Step::Key(key) => path.key(key),
            Step::Index(index) => path.index(*index),
        });
        let value = generator.tree(2);
        let (row, new) = (document(&tree), document(&value));
        let mut wanted = tree.clone();
        let edited = match generator.below(3) {
            0 => {
                edit(&mut wanted, &steps, Some(&value), false);
                row.as_raw().set(&path, &new)
            }
            1 => {
                edit(&mut wanted, &steps, Some(&value), true);
                row.as_raw().insert(&path, &new)
            }
            _ => {
                edit(&mut wanted, &steps, None, false);
                row.as_raw().remove(&path)
            }
        };
        let edited = edited.unwrap();
        assert_eq!(edited, document(&wanted), "{row} {path} {new}");
        assert!(edited.as_raw().is_canonical());
        changed += usize::from(edited != row);
    }
    assert!(changed > 1000, "{changed}");
}

/// The function of RFC 7396, section 2.
fn merged(target: &Tree, patch: &Tree) -> Tree {
    let changes = match patch {
        Tree::Object(changes) => changes,
        _ => return patch.clone(),
    };
    let mut members = match target {
        Tree::Object(members) => members.clone(),
        _ => Default::default(),
    };
    for (key, change) in changes {
        let before = members.remove(key).unwrap_or(Tree::Null);
        if *change != Tree::Null {
            members.insert(key.clone(), merged(&before, change));
        }
    }
    Tree::Object(members)
}

/// A merge patch that has keys of the tree.
fn some_patch(tree: &Tree, generator: &mut Generator) -> Tree {
    let mut changes = match tree {
        Tree::Object(members) => members.clone(),
        _ => return generator.tree(2),
    };
    changes.retain(|_, _| generator.below(3) > 0);
    for change in changes.values_mut() {
        *change = match generator.below(3) {
            0 => Tree::Null,
            _ => some_patch(change, generator),
        };
    }
    changes.insert("new".into(), generator.tree(2));
    Tree::Object(changes)
}

/// The tree without the members that are null.
fn stripped(tree: &Tree) -> Tree {
    match tree {
        Tree::Array(items) => Tree::Array(items.iter().map(stripped).collect()),
        Tree::Object(members) => Tree::Object(
            members
                .iter()
                .filter(|(_, value)| **value != Tree::Null)
                .map(|(key, value)| (key.clone(), stripped(value)))
                .collect(),
        ),
        scalar => scalar.clone(),
    }
}

#[test]
fn random_merges_and_nulls_taken_out_are_those_of_the_model() {
    let mut generator = Generator(53);
    let (mut changed, mut shorter) = (0, 0);
    for _ in 0..4000 {
        let tree = generator.tree(4);
        let patch = some_patch(&tree, &mut generator);
        let (row, change) = (document(&tree), document(&patch));
        let result = row.as_raw().merge_patch(change.as_raw()).unwrap();
        assert_eq!(result, document(&merged(&tree, &patch)), "{row} {change}");
        assert!(result.as_raw().is_canonical());
        changed += usize::from(result != row && result != change);
        let result = change.as_raw().strip_nulls().unwrap();
        assert_eq!(result, document(&stripped(&patch)), "{change}");
        assert!(result.as_raw().is_canonical());
        shorter += usize::from(result != change);
    }
    assert!(changed > 500 && shorter > 500, "{changed} {shorter}");
}
