//! Deep nesting, in threads with the stack that `std::thread` gives, which is where tests run.

use kohiblad::{bytes, Error, OwnedJsonb, Path, RawJsonb, CALL_STACK, MAX_DEPTH};
use kohiblad::{depth_left, EDIT_LEVEL_STACK, LEVEL_STACK, PATCH_LEVEL_STACK};
use std::thread;

/// The text of arrays, or of objects, inside one another.
fn text(levels: usize, open: &str, close: &str) -> String {
    open.repeat(levels) + "0" + &close.repeat(levels)
}

/// The document of empty arrays inside one another, by docs/FORMAT.md.
fn nested(levels: usize) -> Vec<u8> {
    let mut document = Vec::new();
    for level in (1..levels).rev() {
        let length = 4 + 8 * (level as u32 - 1);
        document.extend(0x8000_0001_u32.to_be_bytes());
        document.extend((0x5000_0000 + length).to_be_bytes());
    }
    document.extend(0x8000_0000_u32.to_be_bytes());
    document
}

#[test]
fn the_greatest_depth_fits_the_stack_of_a_thread() {
    for (open, close) in [("[", "]"), ("{\"a\":", "}")] {
        let text = text(MAX_DEPTH, open, close);
        let document = OwnedJsonb::parse(&text, MAX_DEPTH).unwrap();
        let raw = document.as_raw();
        assert_eq!(raw.to_string(), text);
        assert!(raw.pretty_text().unwrap().len() > MAX_DEPTH * MAX_DEPTH);
        assert_eq!(raw, RawJsonb::new(document.as_bytes()).unwrap());
        assert_eq!(raw.to_canonical().unwrap().as_bytes(), document.as_bytes());
        assert!(raw.is_canonical());
        assert!(raw.key().is_ok());
        assert_eq!(bytes::sorted_order([raw, raw]), Ok(vec![0, 1]));
    }
}

/// What the tests take of a stack beside the calls.
const OWN_FRAMES: usize = 64 << 10;

/// How deep a patch fits a thread of 2 MiB.
const MERGE_DEPTH: usize = 800;

/// Runs in a thread that has so much stack, and for this depth.
fn in_thread(stack: usize, depth: usize, run: fn(usize)) {
    let thread = thread::Builder::new().stack_size(stack);
    thread.spawn(move || run(depth)).unwrap().join().unwrap();
}

/// Each call that recurses and changes nothing at a path, on documents of a depth.
fn read(depth: usize) {
    for (open, close) in [("[", "]"), ("{\"a\":", "}"), ("[{\"a\":", "}]")] {
        let text = text(depth / open.matches(['[', '{']).count(), open, close);
        let document = OwnedJsonb::parse(&text, depth).unwrap();
        let raw = RawJsonb::within(document.as_bytes(), depth).unwrap();
        let other = OwnedJsonb::parse(text.replace('0', "0.0"), depth).unwrap();
        let other = other.as_raw();
        assert_eq!(raw.to_string(), text);
        assert!(raw.pretty_text().is_ok() && raw.key().is_ok() && raw.is_canonical());
        assert_eq!(raw, other);
        assert_eq!(raw.contains(other), Ok(true));
        assert!(!raw.exists("b"));
        assert_eq!(raw.exists_any(["b", "c"]), Ok(false));
        assert_eq!(raw.to_canonical().unwrap(), document);
        assert_eq!(raw.index_keys().unwrap().len(), 1);
        assert_eq!(raw.strip_nulls().unwrap(), document);
        assert_eq!(raw.array_overlap(other), Ok(true));
        assert_eq!(bytes::sorted_order([raw, other]), Ok(vec![0, 1]));
        assert!(bytes::compare(raw.as_bytes(), other.as_bytes()).is_eq());
    }
}

/// A document of a depth changed by a patch of that depth.
fn merge(depth: usize) {
    for (open, close) in [("[", "]"), ("{\"a\":", "}")] {
        let document = OwnedJsonb::parse(text(depth, open, close), depth).unwrap();
        assert_eq!(
            document.as_raw().merge_patch(document.as_raw()).unwrap(),
            document
        );
    }
}

/// The calls that change a document of a depth at a path: above it, at its bottom and half-way; and
/// two documents joined.
fn change(depth: usize) {
    for (open, close) in [("[", "]"), ("{\"a\":", "}")] {
        let document = OwnedJsonb::parse(text(depth, open, close), depth).unwrap();
        let raw = document.as_raw();
        assert!(raw.concat(raw).is_ok());
        for steps in [1, depth / 2, depth] {
            let path = (0..steps).fold(Path::new(), |path, _| match open {
                "[" => path.index(0),
                _ => path.key("a"),
            });
            let value = OwnedJsonb::parse(text(depth - steps, open, close), depth).unwrap();
            assert_eq!(raw.set(&path, &value).unwrap(), document);
            assert!(raw.insert(&path, &value).is_ok());
            assert!(raw.remove(&path).is_ok());
        }
    }
}

#[test]
fn the_greatest_depth_fits_2_mib() {
    in_thread(2 << 20, MAX_DEPTH, read);
    in_thread(2 << 20, MAX_DEPTH, change);
    in_thread(2 << 20, MERGE_DEPTH, merge);
    in_thread(3 << 20, MAX_DEPTH, merge);
}

#[test]
fn less_stack_holds_the_depths_of_the_page() {
    for (left, depth, depth_of_changes, depth_of_patches) in [
        (1 << 20, 1000, 508, 427),
        (512 << 10, 504, 252, 212),
        (256 << 10, 248, 124, 104),
        (64 << 10, 56, 28, 23),
    ] {
        assert_eq!(MAX_DEPTH.min((left - CALL_STACK) / LEVEL_STACK), depth);
        assert_eq!((left - CALL_STACK) / EDIT_LEVEL_STACK, depth_of_changes);
        assert_eq!((left - CALL_STACK) / PATCH_LEVEL_STACK, depth_of_patches);
        in_thread(left + OWN_FRAMES, depth, read);
        in_thread(left + OWN_FRAMES, depth_of_changes, change);
        in_thread(left + OWN_FRAMES, depth_of_patches, merge);
    }
}

/// Documents of the greatest depth, on a stack that does not carry them: as they come in, and as
/// other threads have made them.
fn refuse_all(_: usize) {
    for (open, close) in [("[", "]"), ("{\"a\":", "}")] {
        let text = text(MAX_DEPTH, open, close);
        assert_eq!(OwnedJsonb::parse(&text, MAX_DEPTH), Err(Error::TooDeep));
        assert_eq!(text.parse::<OwnedJsonb>(), Err(Error::TooDeep));
        let made = thread::Builder::new().stack_size(4 << 20);
        let made = made.spawn(move || text.parse::<OwnedJsonb>().unwrap());
        let made = made.unwrap().join().unwrap();
        let refused = Some(Error::InvalidJsonb);
        assert_eq!(RawJsonb::new(made.as_bytes()).err(), refused);
        assert_eq!(OwnedJsonb::new(made.as_bytes().to_vec()).err(), refused);
        assert!(!bytes::is_document(made.as_bytes()));
        let (raw, refused) = (made.as_raw(), Some(Error::TooDeep));
        let path = Path::new().index(0);
        assert_eq!(raw.compact_text().err(), refused);
        assert_eq!(raw.pretty_text().err(), refused);
        assert_eq!(raw.key().err(), refused);
        assert_eq!(raw.to_canonical().err(), refused);
        assert_eq!(raw.contains(raw).err(), refused);
        assert_eq!(raw.index_keys().err(), refused);
        assert_eq!(raw.strip_nulls().err(), refused);
        assert_eq!(raw.merge_patch(raw).err(), refused);
        assert_eq!(raw.concat(raw).err(), refused);
        assert_eq!(raw.set(&path, 1).err(), refused);
        assert_eq!(raw.remove(&path).err(), refused);
        assert_eq!(raw.get_path(&path).err(), refused);
        assert_eq!(raw.select_within("$", 9).err(), refused);
        assert_eq!(raw.select("$").err().map(Error::from), refused);
        assert!(std::panic::catch_unwind(|| raw.cmp(&raw)).is_err());
        assert!(std::panic::catch_unwind(|| raw.to_string()).is_err());
        assert!(std::panic::catch_unwind(|| raw.is_canonical()).is_err());
        assert_eq!(bytes::sorted_order([raw, raw]), Ok(vec![0, 1]));
        assert!(bytes::compare(raw.as_bytes(), raw.as_bytes()).is_eq());
    }
}

/// Runs in a thread that has no more stack than this. The C library gives a thread the stack of one
/// that has ended, which may be larger: such a thread is held until another one has run.
fn in_small_thread(stack: usize, run: fn(usize)) {
    let thread = thread::Builder::new().stack_size(stack);
    let run = move || match depth_left(1024) * 1024 < stack {
        true => run(0),
        false => in_small_thread(stack, run),
    };
    thread.spawn(run).unwrap().join().unwrap();
}

#[test]
fn no_document_ends_a_thread() {
    for stack in [96 << 10, 128 << 10, 256 << 10, 512 << 10] {
        in_small_thread(stack, refuse_all);
        in_small_thread(stack, |_| {
            let depth = depth_left(LEVEL_STACK);
            assert!(depth >= 16);
            let deeper = text(depth + 1, "[", "]");
            assert_eq!(deeper.parse::<OwnedJsonb>(), Err(Error::TooDeep));
            // The frames of the test take some levels.
            read(depth - 16);
        });
    }
}

#[test]
fn deeper_texts_are_refused() {
    for levels in [MAX_DEPTH + 1, 100_000] {
        for (open, close) in [("[", "]"), ("{\"a\":", "}")] {
            let text = text(levels, open, close);
            assert_eq!(OwnedJsonb::parse(&text, usize::MAX), Err(Error::TooDeep));
            assert_eq!(text.parse::<OwnedJsonb>(), Err(Error::TooDeep));
        }
        assert_eq!(
            OwnedJsonb::parse("[".repeat(levels), usize::MAX),
            Err(Error::TooDeep)
        );
    }
}

#[test]
fn the_place_of_a_fault_is_found_as_deep() {
    for (open, close) in [("[", "]"), ("{\"a\":", "}")] {
        let open = open.repeat(MAX_DEPTH);
        let text = format!("{open}1e5{}", close.repeat(MAX_DEPTH));
        let refused = Error::BadNumber {
            offset: open.len() + 1,
        };
        assert_eq!(OwnedJsonb::parse(&text, MAX_DEPTH), Err(refused));
        let refused = Error::InvalidJson { offset: open.len() };
        assert_eq!(OwnedJsonb::parse(&open, MAX_DEPTH), Err(refused));
    }
}

#[test]
fn deeper_documents_are_refused() {
    assert!(bytes::is_document(&nested(MAX_DEPTH)));
    for levels in [MAX_DEPTH + 1, 100_000] {
        let deep = nested(levels);
        assert_eq!(
            RawJsonb::within(&deep, usize::MAX),
            Err(Error::InvalidJsonb)
        );
        assert_eq!(OwnedJsonb::new(deep.clone()), Err(Error::InvalidJsonb));
        assert!(!bytes::is_document(&deep));
        // As bytes that are no document: after all documents, and by their bytes.
        let null = OwnedJsonb::parse("null", 0).unwrap();
        assert!(bytes::compare(&deep, null.as_bytes()).is_gt());
        assert!(bytes::compare(&deep, &deep).is_eq());
        assert_eq!(bytes::key(&deep).unwrap().as_bytes()[0], 0xff);
        assert_eq!(
            bytes::sorted_order([&deep[..], null.as_bytes()]),
            Ok(vec![1, 0])
        );
        assert_eq!(bytes::get(&deep, "a"), Ok(None));
    }
}

#[test]
fn builders_nest_no_deeper() {
    let mut array = OwnedJsonb::build_array([]).unwrap();
    for _ in 1..MAX_DEPTH {
        array = OwnedJsonb::build_array([array.as_raw()]).unwrap();
    }
    assert_eq!(array.as_bytes(), nested(MAX_DEPTH));
    let refused = OwnedJsonb::build_array([array.as_raw()]);
    assert_eq!(refused, Err(Error::InvalidJsonb));
    let refused = OwnedJsonb::build_object([("a", array.as_raw())]);
    assert_eq!(refused, Err(Error::InvalidJsonb));
    assert_eq!(OwnedJsonb::array_of([&array]), Err(Error::InvalidJsonb));
    let refused = OwnedJsonb::object_of([("a", array)]);
    assert_eq!(refused, Err(Error::InvalidJsonb));
}
