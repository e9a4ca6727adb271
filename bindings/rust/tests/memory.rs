//! Each allocation of the crate refused in turn: the call must return `OutOfMemory`, and succeed if
//! none is refused. What the library itself allocates is not refused here.

use std::alloc::{GlobalAlloc, Layout, System};
use std::cell::Cell;
use std::ptr;

use kohiblad::{bytes, read_path, Error, JsonPath, OwnedJsonb, Path};

thread_local! {
    /// How many allocations succeed before one is refused; `None` if all succeed.
    static LEFT: Cell<Option<usize>> = const { Cell::new(None) };
}

/// The system's allocator, which refuses one request of a thread.
struct Refusing;

impl Refusing {
    fn refuses(&self) -> bool {
        LEFT.with(|left| {
            let before = left.get();
            left.set(before.and_then(|count| count.checked_sub(1)));
            before == Some(0)
        })
    }
}

// SAFETY: each call is the system's, or returns null, which an allocator may.
unsafe impl GlobalAlloc for Refusing {
    unsafe fn alloc(&self, layout: Layout) -> *mut u8 {
        if self.refuses() {
            return ptr::null_mut();
        }
        System.alloc(layout)
    }

    unsafe fn dealloc(&self, block: *mut u8, layout: Layout) {
        System.dealloc(block, layout);
    }

    unsafe fn realloc(&self, block: *mut u8, layout: Layout, size: usize) -> *mut u8 {
        if size > layout.size() && self.refuses() {
            return ptr::null_mut();
        }
        System.realloc(block, layout, size)
    }
}

#[global_allocator]
static ALLOCATOR: Refusing = Refusing;

/// Makes the call with its first allocation refused, then the second and so on, until it succeeds.
fn refuse_each<T>(name: &str, call: impl Fn() -> Result<T, Error>) {
    let mut refused = 0;
    loop {
        LEFT.with(|left| left.set(Some(refused)));
        let result = call().map(drop);
        LEFT.with(|left| left.set(None));
        match result {
            Ok(()) => break,
            Err(error) => assert_eq!(error, Error::OutOfMemory, "{name}"),
        }
        refused += 1;
    }
    assert!(refused > 0, "{name} takes no memory");
}

#[test]
fn refused_allocations_are_named() {
    // Longer than the room that is tried first.
    let long = "a long text, ".repeat(20);
    let text = format!(r#"{{"{long}":"{long}","list":[1,"{long}"]}}"#);
    let row = OwnedJsonb::parse(&text, 64).unwrap();
    let row = row.as_raw();
    let list = row.get("list").unwrap().unwrap();
    let list = list.as_raw();

    refuse_each("parse", || OwnedJsonb::parse(&text, 64));
    refuse_each("of a text", || OwnedJsonb::of(long.as_str()));
    refuse_each("of a number", || OwnedJsonb::of(7));
    refuse_each("of a document", || OwnedJsonb::of(row));
    refuse_each("build_array", || OwnedJsonb::build_array([row, list]));
    refuse_each("build_object", || {
        OwnedJsonb::build_object([("b", row), ("a", list)])
    });
    refuse_each("try_from a number", || OwnedJsonb::try_from(7_u8));
    refuse_each("try_from a text", || OwnedJsonb::try_from(long.as_str()));
    refuse_each("try_from nothing", || OwnedJsonb::try_from(None::<bool>));
    refuse_each("array_of", || OwnedJsonb::array_of([row, list]));
    refuse_each("object_of", || OwnedJsonb::object_of([("b", 1), ("a", 2)]));
    refuse_each("get", || row.get(&long));
    refuse_each("bytes::get", || bytes::get(row.as_bytes(), &long));
    refuse_each("array_item", || list.array_item(1));
    refuse_each("object_member", || row.object_member(0));
    refuse_each("compact_text", || row.compact_text());
    refuse_each("pretty_text", || row.pretty_text());
    refuse_each("to_canonical", || row.to_canonical());
    refuse_each("key", || row.key());
    refuse_each("concat", || row.concat(list));
    refuse_each("merge_patch", || row.merge_patch(row));
    refuse_each("strip_nulls", || row.strip_nulls());
    refuse_each("pick", || row.pick(["list"]));
    refuse_each("without", || row.without([long.as_str()]));
    refuse_each("object_keys", || row.object_keys());
    refuse_each("array_distinct", || list.array_distinct());
    refuse_each("array_intersection", || list.array_intersection(list));
    refuse_each("array_except", || list.array_except(row));
    refuse_each("member_key", || row.member_key(["list", "none"]));
    refuse_each("a path", || Path::new().key("list").index(-1).to_document());
    let path = || Path::new().key("list").index(-1);
    refuse_each("set", || row.set(&path(), long.as_str()));
    refuse_each("insert", || row.insert(&path(), 7));
    refuse_each("remove", || row.remove(&path()));
    refuse_each("read_path", || {
        let bytes = row.as_bytes();
        let read = |at: usize, out: &mut [u8]| {
            out.copy_from_slice(&bytes[at..at + out.len()]);
            Ok::<(), Error>(())
        };
        read_path(bytes.len(), read, &path())
    });
    refuse_each("a path of SQL/JSON", || {
        JsonPath::parse("$.list[*]").map_err(Error::from)
    });
    let all = JsonPath::parse("$.list[*]").unwrap();
    refuse_each("query", || all.query(row));
    refuse_each("query_first", || all.query_first(row));
    refuse_each("index_keys", || row.index_keys());
    refuse_each("sorted_order", || bytes::sorted_order([row, list]));
}
