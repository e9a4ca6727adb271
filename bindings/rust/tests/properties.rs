//! Random values, of which the crate and the model in `model` must have the same documents, texts,
//! children and order.

mod model;

use std::cmp::Ordering;
use std::collections::hash_map::DefaultHasher;
use std::hash::{Hash, Hasher};

use kohiblad::{bytes, Error, ExtensionValue, Kind, Node, Number, OwnedJsonb, RawJsonb};
use model::{Extension, Generator, Tree};

const TREES: usize = 4000;

fn trees(seed: u64, count: usize) -> Vec<Tree> {
    let mut generator = Generator(seed);
    (0..count).map(|_| generator.tree(4)).collect()
}

fn document(tree: &Tree) -> OwnedJsonb {
    OwnedJsonb::new(tree.document()).expect("the model's document is one")
}

fn extension_value(value: &Extension) -> ExtensionValue<'_> {
    match value {
        Extension::Binary(data) => ExtensionValue::Binary(data),
        Extension::Date(date) => ExtensionValue::Date(*date),
        Extension::Timestamp(value) => ExtensionValue::Timestamp(*value),
        Extension::TimestampTz(value, offset) => ExtensionValue::TimestampTz {
            value: *value,
            offset: *offset,
        },
        Extension::Interval(months, days, micros) => ExtensionValue::Interval {
            months: *months,
            days: *days,
            micros: *micros,
        },
        Extension::Opaque(tag, data) => ExtensionValue::Opaque { tag: *tag, data },
    }
}

/// The document of a tree, built of the documents of its children.
fn built(tree: &Tree) -> Result<OwnedJsonb, Error> {
    match tree {
        Tree::Null => OwnedJsonb::of(Node::Null),
        Tree::Boolean(value) => OwnedJsonb::of(*value),
        Tree::Number(model::Number { digits, scale }) => OwnedJsonb::of(Number {
            digits: *digits,
            scale: *scale,
        }),
        Tree::Text(text) => OwnedJsonb::of(text.as_str()),
        Tree::Extension(value) => OwnedJsonb::of(extension_value(value)),
        Tree::Array(items) => {
            let items = items.iter().map(built).collect::<Result<Vec<_>, _>>()?;
            OwnedJsonb::build_array(items.iter().map(OwnedJsonb::as_raw))
        }
        Tree::Object(members) => {
            let values = members.values().map(built).collect::<Result<Vec<_>, _>>()?;
            let pairs = members.keys().zip(values.iter().map(OwnedJsonb::as_raw));
            // The last key first: builders sort the keys.
            OwnedJsonb::build_object(pairs.rev().collect::<Vec<_>>())
        }
    }
}

/// Compares a value in place with a tree, with all of its children.
fn assert_is(node: Node<'_>, tree: &Tree) {
    match (node, tree) {
        (Node::Null, Tree::Null) => (),
        (Node::Boolean(value), Tree::Boolean(right)) => assert_eq!(value, *right),
        (Node::Number(value), Tree::Number(right)) => {
            assert_eq!((value.digits, value.scale), (right.digits, right.scale));
        }
        (Node::String(value), Tree::Text(right)) => assert_eq!(value, right),
        (Node::Extension(value), Tree::Extension(right)) => {
            assert_eq!(value, extension_value(right));
        }
        (Node::Container(array), Tree::Array(right)) => {
            let mut items = array.items().expect("it is an array");
            for (index, item) in right.iter().enumerate() {
                assert_eq!(items.len(), right.len() - index);
                assert_is(items.next().expect("there is one more item"), item);
            }
            assert_eq!((items.len(), items.count()), (0, 0));
            assert!(array.members().is_none());
        }
        (Node::Container(object), Tree::Object(right)) => {
            let mut members = object.members().expect("it is an object");
            for (index, (right_key, right_value)) in right.iter().enumerate() {
                assert_eq!(members.len(), right.len() - index);
                let (key, value) = members.next().expect("there is one more member");
                assert_eq!(key, right_key);
                assert_is(value, right_value);
            }
            assert_eq!((members.len(), members.count()), (0, 0));
            assert!(object.items().is_none());
        }
        (node, tree) => panic!("{node:?} is not {tree:?}"),
    }
}

fn hash_of(value: &impl Hash) -> u64 {
    let mut hasher = DefaultHasher::new();
    value.hash(&mut hasher);
    hasher.finish()
}

#[test]
fn documents_texts_and_nodes_are_those_of_the_model() {
    for tree in trees(1, TREES) {
        let stored = document(&tree);
        let raw = stored.as_raw();
        assert_eq!(raw.to_string(), tree.compact());
        assert_eq!(format!("{raw:#}"), tree.pretty(0));
        assert_is(raw.node(), &tree);
        assert_eq!(built(&tree).unwrap().as_bytes(), stored.as_bytes());
        assert_eq!(raw.to_owned_jsonb().unwrap().as_bytes(), stored.as_bytes());
        if tree.is_plain() {
            for text in [tree.compact(), tree.pretty(0)] {
                let parsed = OwnedJsonb::parse(&text, tree.depth()).unwrap();
                assert_eq!(parsed.as_bytes(), stored.as_bytes(), "{text}");
            }
        }
    }
}

#[test]
fn children_are_documents_of_their_own() {
    for tree in trees(2, TREES) {
        let stored = document(&tree);
        let raw = stored.as_raw();
        let (mut items, mut members) = (0, 0);
        match &tree {
            Tree::Array(trees) => {
                items = trees.len();
                assert_eq!(raw.kind(), Kind::Array(items));
                for (index, tree) in trees.iter().enumerate() {
                    let item = raw.array_item(index).unwrap().unwrap();
                    assert_eq!(item.as_bytes(), tree.document());
                }
            }
            Tree::Object(trees) => {
                members = trees.len();
                assert_eq!(raw.kind(), Kind::Object(members));
                for (index, (key, tree)) in trees.iter().enumerate() {
                    let (found, value) = raw.object_member(index).unwrap().unwrap();
                    assert_eq!((&found, value.as_bytes()), (key, &tree.document()[..]));
                    assert_is(raw.find(key).unwrap(), tree);
                    let value = raw.get(key).unwrap().unwrap();
                    assert_eq!(value.as_bytes(), tree.document());
                    let value = bytes::get(raw.as_bytes(), key).unwrap().unwrap();
                    assert_eq!(value.as_bytes(), tree.document());
                }
            }
            _ => (),
        }
        assert_eq!(raw.array_item(items), Ok(None));
        assert_eq!(raw.object_member(members), Ok(None));
        assert_eq!(raw.get("no such key"), Ok(None));
        assert_eq!(bytes::get(raw.as_bytes(), "no such key"), Ok(None));
        assert!(raw.find("no such key").is_none());
    }
}

#[test]
fn scalars_are_read_as_their_kind_alone() {
    for tree in trees(3, TREES) {
        let stored = document(&tree);
        let raw = stored.as_raw();
        let other = Error::OtherKind;
        let mut right = (Err(other), Err(other), Err(other), Err(other), Err(other));
        match &tree {
            Tree::Number(number) => {
                let integer = i64::try_from(number.digits)
                    .ok()
                    .filter(|_| number.scale == 0);
                right.0 = Ok((number.digits, number.scale));
                right.1 = integer.ok_or(Error::PastRange);
                assert_eq!(i64::try_from(raw.as_number().unwrap()), right.1);
            }
            Tree::Text(text) => right.2 = Ok(text.as_str()),
            Tree::Boolean(value) => right.3 = Ok(*value),
            Tree::Extension(value) => right.4 = Ok(extension_value(value)),
            _ => (),
        }
        let number = raw.as_number().map(|number| (number.digits, number.scale));
        let scalars = (
            number,
            raw.as_i64(),
            raw.as_str(),
            raw.as_bool(),
            raw.as_extension(),
        );
        assert_eq!(scalars, right);
    }
}

#[test]
fn old_forms_mean_the_same_value() {
    let mut generator = Generator(4);
    let mut old_documents = 0;
    for tree in trees(5, TREES) {
        let canonical = document(&tree);
        let old = OwnedJsonb::new(tree.document_in(&mut || generator.below(2) == 0)).unwrap();
        assert!(canonical.as_raw().is_canonical());
        let is_canonical = old.as_bytes() == canonical.as_bytes();
        assert_eq!(old.as_raw().is_canonical(), is_canonical);
        let rewritten = old.as_raw().to_canonical().unwrap();
        assert_eq!(rewritten.as_bytes(), canonical.as_bytes());
        assert_eq!(old, canonical);
        assert_eq!(hash_of(&old), hash_of(&canonical));
        assert_is(old.as_raw().node(), &tree);
        old_documents += usize::from(!is_canonical);
    }
    assert!(old_documents > TREES / 8);
}

#[test]
fn order_keys_and_hashes_are_those_of_the_model() {
    let trees = trees(6, 400);
    let documents: Vec<_> = trees.iter().map(document).collect();
    let keys: Vec<_> = documents
        .iter()
        .map(|it| it.as_raw().key().unwrap())
        .collect();
    let mut equal = 0;
    for (left, tree) in trees.iter().enumerate() {
        for (right, other) in trees.iter().enumerate() {
            let order = tree.cmp(other);
            assert_eq!(
                documents[left].cmp(&documents[right]),
                order,
                "{tree:?}, {other:?}"
            );
            assert_eq!(keys[left].cmp(&keys[right]), order);
            if order == Ordering::Equal {
                assert_eq!(hash_of(&documents[left]), hash_of(&documents[right]));
                equal += 1;
            }
        }
    }
    assert!(equal > trees.len());
    let mut order: Vec<_> = (0..trees.len()).collect();
    order.sort_by(|&left, &right| trees[left].cmp(&trees[right]));
    assert_eq!(bytes::sorted_order(&documents), Ok(order));
}

#[test]
fn checks_look_as_deep_as_the_depth() {
    for tree in trees(7, TREES) {
        let (stored, depth) = (tree.document(), tree.depth());
        assert!(RawJsonb::within(&stored, depth).is_ok());
        if depth > 0 {
            assert_eq!(
                RawJsonb::within(&stored, depth - 1),
                Err(Error::InvalidJsonb)
            );
        }
    }
}

/// The document of a tree with a few bytes changed, put in or cut off.
fn damaged(tree: &Tree, generator: &mut Generator) -> Vec<u8> {
    let mut stored = tree.document();
    for _ in 0..=generator.below(3) {
        let place = generator
            .below(stored.len().max(1))
            .min(stored.len().saturating_sub(1));
        match generator.below(4) {
            0 if !stored.is_empty() => stored[place] ^= 1 << generator.below(8),
            1 if !stored.is_empty() => stored[place] = generator.bits() as u8,
            2 => stored.truncate(place),
            _ => stored.insert(place, generator.bits() as u8),
        }
    }
    stored
}

#[test]
fn damaged_bytes_are_refused_or_documents() {
    let mut generator = Generator(8);
    let (mut documents, mut refused) = (0, 0);
    let mut before = Vec::new();
    for tree in trees(9, 5 * TREES) {
        let stored = damaged(&tree, &mut generator);
        let order = bytes::compare(&before, &stored);
        assert_eq!(bytes::compare(&stored, &before), order.reverse());
        assert_eq!(
            bytes::key(&before)
                .unwrap()
                .cmp(&bytes::key(&stored).unwrap()),
            order
        );
        let kind = bytes::kind(&stored);
        let value = bytes::get(&stored, "price");
        match RawJsonb::new(&stored) {
            Ok(raw) => {
                documents += 1;
                assert_eq!(kind, Ok(raw.kind()));
                assert_eq!(value, raw.get("price"));
                assert_eq!(raw.to_canonical().unwrap().as_raw(), raw);
                // Each part of what is known to be a document can be read.
                let _ = format!("{:?} {raw:#}", raw.node());
                if let Some(members) = raw.members() {
                    members.for_each(|(key, value)| drop(format!("{key} {value:?}")));
                }
            }
            Err(error) => {
                refused += 1;
                assert_eq!(error, Error::InvalidJsonb);
                assert!(!bytes::is_document(&stored));
                let is_above = bytes::is_document(&before);
                let right = if is_above {
                    Ordering::Less
                } else {
                    before.cmp(&stored)
                };
                assert_eq!(order, right);
            }
        }
        before = stored;
    }
    assert!(documents > 100 && refused > 1000, "{documents} {refused}");
}
