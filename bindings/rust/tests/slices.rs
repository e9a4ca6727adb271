//! Look-ups in documents of which slices are read: what they find, and what they read for it.

#[allow(dead_code)]
mod model;

use kohiblad::{read_path, Error, OwnedJsonb, Path};
use model::{Generator, Tree};
use std::io::{self, Cursor, Read, Seek, SeekFrom};

type Found = Result<Option<OwnedJsonb>, Error>;

/// What a look-up finds in bytes, and the places from which and up to which it read.
fn found_in(bytes: &[u8], path: &Path) -> (Found, Vec<(usize, usize)>) {
    let mut slices = Vec::new();
    let found = read_path(
        bytes.len(),
        |at: usize, out: &mut [u8]| {
            slices.push((at, at + out.len()));
            out.copy_from_slice(&bytes[at..at + out.len()]);
            Ok(())
        },
        path,
    );
    (found, slices)
}

/// A random path from a value, and the value to which it leads.
fn chosen<'t>(random: &mut Generator, tree: &'t Tree) -> (Path, Option<&'t Tree>) {
    let (mut path, mut value) = (Path::new(), Some(tree));
    for _ in 0..random.below(4) {
        if random.below(3) == 0 {
            let key = ["a", "b", "price", "", "none"][random.below(5)];
            path = path.key(key);
            value = match value {
                Some(Tree::Object(members)) => members.get(key),
                _ => None,
            };
            continue;
        }
        match value {
            Some(Tree::Object(members)) if !members.is_empty() => {
                let place = random.below(members.len());
                let (key, member) = members.iter().nth(place).unwrap();
                (path, value) = (path.key(key), Some(member));
            }
            Some(Tree::Array(items)) => {
                let index = random.below(2 * items.len() + 3) as i64 - items.len() as i64 - 1;
                let from_begin = if index < 0 {
                    index + items.len() as i64
                } else {
                    index
                };
                path = path.index(index);
                value = usize::try_from(from_begin)
                    .ok()
                    .and_then(|it| items.get(it));
            }
            _ => (path, value) = (path.index(0), None),
        }
    }
    (path, value)
}

#[test]
fn values_are_those_of_the_model() {
    let mut random = Generator(89);
    let mut found = 0;
    for _ in 0..20_000 {
        let tree = random.tree(4);
        let (path, value) = chosen(&mut random, &tree);
        let expected = value.map(|value| OwnedJsonb::new(value.document()).unwrap());
        assert_eq!(
            found_in(&tree.document(), &path).0,
            Ok(expected),
            "{path} {tree:?}"
        );
        found += usize::from(value.is_some());
    }
    assert!(found > 5_000, "{found} paths lead somewhere");
}

/// An object of 100 texts, and arrays of texts, of 300 KB in all.
fn long_document() -> OwnedJsonb {
    let texts: Vec<_> = (0..100)
        .map(|i| format!("{i:03}{}", "x".repeat(1_500)))
        .collect();
    let array = OwnedJsonb::array_of(texts.iter()).unwrap();
    let names: Vec<_> = (0..100).map(|i| format!("key{i:03}")).collect();
    let members = names.iter().zip(&texts).map(|(name, text)| {
        let value = match name.as_str() {
            "key050" => OwnedJsonb::of(array.as_raw()),
            _ => OwnedJsonb::of(text),
        };
        (name.as_str(), value.unwrap())
    });
    OwnedJsonb::object_of(members).unwrap()
}

#[test]
fn no_more_is_read_than_is_needed() {
    let document = long_document();
    let bytes = document.as_bytes();
    assert!(bytes.len() > 300_000);
    for (path, most, is_there) in [
        (Path::new().key("key000"), 4096 + 1_503, true),
        (Path::new().key("key099"), 4096 + 1_503, true),
        (Path::new().key("key100"), 4096, false),
        (
            Path::new().key("key050").index(-1),
            4096 + 4096 + 1_503,
            true,
        ),
        (Path::new().key("key050").index(100), 4096 + 4096, false),
        (Path::new().key("key050").key("key000"), 4096 + 4096, false),
        (Path::new().key("key001").key("key000"), 4096, false),
    ] {
        let (found, mut slices) = found_in(bytes, &path);
        let read: usize = slices.iter().map(|(begin, end)| end - begin).sum();
        assert!(read <= most, "{path}: {read}");
        slices.sort_unstable();
        assert!(
            slices.windows(2).all(|pair| pair[0].1 <= pair[1].0),
            "{path}: {slices:?}"
        );
        assert_eq!(found.unwrap().is_some(), is_there, "{path}");
    }
}

#[test]
fn many_entry_words_are_read_once() {
    let names: Vec<_> = (0..5_000).map(|i| format!("key{i}")).collect();
    let members = names.iter().map(|name| (name.as_str(), name));
    let document = OwnedJsonb::object_of(members).unwrap();
    let (found, slices) = found_in(document.as_bytes(), &Path::new().key("key4999"));
    assert_eq!(found, Ok(Some(OwnedJsonb::of("key4999").unwrap())));
    assert!(slices.windows(2).all(|pair| pair[0].1 <= pair[1].0) && slices.len() <= 4);
}

#[test]
fn errors_are_those_of_the_reader_and_of_the_bytes() {
    let document = long_document();
    let path = Path::new().key("key050").index(0);
    // The file ends before the value.
    let mut file = Cursor::new(&document.as_bytes()[..10_000]);
    let read = |at: usize, out: &mut [u8]| {
        file.seek(SeekFrom::Start(at as u64))?;
        file.read_exact(out)
    };
    let refused = read_path(document.as_bytes().len(), read, &path).unwrap_err();
    assert_eq!(refused.kind(), io::ErrorKind::UnexpectedEof);
    // The size is that of a shorter document.
    let short = &document.as_bytes()[..10_000];
    assert_eq!(found_in(short, &path).0, Err(Error::InvalidJsonb));
    // The first key is past the end, or its entry word is cut off.
    assert_eq!(found_in(&short[..100], &path).0, Err(Error::InvalidJsonb));
    assert_eq!(found_in(&short[..6], &path).0, Err(Error::InvalidEOF));
    assert_eq!(found_in(b"", &path).0, Err(Error::InvalidEOF));
    assert_eq!(
        found_in(b"no document", &Path::new()).0,
        Err(Error::InvalidJsonb)
    );
    let as_read = io::Error::from(Error::InvalidJsonb);
    assert_eq!(as_read.kind(), io::ErrorKind::InvalidData);
    assert_eq!(
        io::Error::from(Error::OutOfMemory).kind(),
        io::ErrorKind::OutOfMemory
    );
}
