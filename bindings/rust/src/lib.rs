//! JSON values as binary documents, which are searched, compared, sorted and printed in place: safe
//! Rust over the proved C library Kohiblad. The format is that of the crate `jsonb`.
//!
//! ```
//! use kohiblad::{Node, OwnedJsonb};
//!
//! let row = OwnedJsonb::parse(r#"{"name": "Ada", "price": 1.50}"#, 64)?;
//! let row = row.as_raw();
//! assert_eq!(row.to_string(), r#"{"name":"Ada","price":1.50}"#);
//! assert!(matches!(row.find("name"), Some(Node::String("Ada"))));
//! let price = row.get("price")?.expect("the row has a price");
//! assert_eq!(price, OwnedJsonb::parse("1.5", 0)?);
//! # Ok::<(), kohiblad::Error>(())
//! ```
//!
//! [`RawJsonb`] (borrowed) and [`OwnedJsonb`] (owned) are documents, known to be: they are made by
//! one check, by a parse or by a builder, and nest at most [`MAX_DEPTH`] deep, and no deeper than
//! the stack of the thread carries ([`depth_left`]). So their calls return no error because of the
//! bytes. Bytes of which nothing is known are a `&[u8]`: check them by [`RawJsonb::new`], or use
//! the calls of the module [`bytes`].
//!
//! Documents are changed without unpacking, by [`RawJsonb::set`], [`insert`](RawJsonb::insert),
//! [`remove`](RawJsonb::remove), [`concat`](RawJsonb::concat),
//! [`merge_patch`](RawJsonb::merge_patch), [`strip_nulls`](RawJsonb::strip_nulls),
//! [`pick`](RawJsonb::pick) and others, and asked what they contain:
//!
//! ```
//! use kohiblad::{OwnedJsonb, Path};
//!
//! let row = OwnedJsonb::parse(r#"{"name": "Ada", "tags": ["a"]}"#, 64)?;
//! let row = row.as_raw().set(&Path::new().key("tags").index(1), "b")?;
//! assert_eq!(row.to_string(), r#"{"name":"Ada","tags":["a","b"]}"#);
//! let wanted = OwnedJsonb::parse(r#"{"tags": ["b"]}"#, 64)?;
//! assert!(row.as_raw().contains(wanted.as_raw())?);
//! # Ok::<(), kohiblad::Error>(())
//! ```
//!
//! A [`JsonPath`] asks for values, or whether a test is true, in the language of PostgreSQL's
//! `jsonpath`:
//!
//! ```
//! use kohiblad::{JsonPath, OwnedJsonb};
//!
//! let row = OwnedJsonb::parse(r#"{"lines": [{"price": 3}, {"price": 5}]}"#, 64)?;
//! let dear = JsonPath::parse("$.lines[*].price > 4")?;
//! assert_eq!(dear.matches(row.as_raw())?, Some(true));
//! # Ok::<(), kohiblad::Error>(())
//! ```
//!
//! There is no floating point: a document with a double is refused as [`Error::InvalidJsonb`]. A
//! JSON number with an exponent, as `1e5`, is refused by [`OwnedJsonb::parse`] as
//! [`Error::BadNumber`], and means exactly its value to [`OwnedJsonb::parse_with_exponents`].
//!
//! The feature `std`, which is on by default, implements `std::error::Error` for [`Error`]. Without
//! it the crate needs `core` and `alloc` alone.

#![cfg_attr(not(any(feature = "std", test)), no_std)]
#![deny(missing_docs, unsafe_code, rustdoc::broken_intra_doc_links)]
#![warn(clippy::missing_errors_doc, clippy::missing_panics_doc)]

extern crate alloc;

pub mod bytes;
mod children;
mod error;
mod exports;
#[allow(unsafe_code)]
mod ffi;
mod json_path;
mod key;
mod node;
mod owned;
mod path;
mod raw;
mod slices;
mod stack;
mod words;

pub use children::{Items, Members};
pub use error::Error;
pub use json_path::{JsonPath, PathError, PathQuery, Values};
pub use key::ComparableKey;
pub use node::{ExtensionValue, Kind, Node, Number};
pub use owned::OwnedJsonb;
pub use path::Path;
pub use raw::RawJsonb;
pub use slices::read_path;
pub use stack::depth_left;
pub use words::{fault_words, fault_words_with_exponents};

/// How deep a document or a text may nest. A scalar has depth 0, an array or object one more than
/// its deepest child, and at least 1.
///
/// Documents of this depth fit a thread of 2 MiB, which is what Rust gives a thread: calls on them
/// take at most 1,008 KB of its stack, and [`set`](RawJsonb::set), [`insert`](RawJsonb::insert),
/// [`remove`](RawJsonb::remove) and [`concat`](RawJsonb::concat) 2,008 KB, which leaves 40 KB for
/// the frames of the program. [`merge_patch`](RawJsonb::merge_patch) takes 2,383 KB: a thread of
/// 2 MiB has enough for 800 levels. Where less is left, calls look as deep as it carries, which
/// [`depth_left`] says: for each level they take [`LEVEL_STACK`], [`EDIT_LEVEL_STACK`] or
/// [`PATCH_LEVEL_STACK`], and beside them [`CALL_STACK`].
///
/// ```
/// use kohiblad::{CALL_STACK, EDIT_LEVEL_STACK, LEVEL_STACK, MAX_DEPTH};
///
/// assert!(CALL_STACK + MAX_DEPTH * LEVEL_STACK < 1 << 20);
/// assert!(CALL_STACK + MAX_DEPTH * EDIT_LEVEL_STACK < 2 << 20);
/// let left: usize = 512 << 10;
/// assert_eq!((left - CALL_STACK) / LEVEL_STACK, 504);
/// assert_eq!((left - CALL_STACK) / EDIT_LEVEL_STACK, 252);
/// ```
pub const MAX_DEPTH: usize = 1000;

/// How many bytes of stack a call takes at most, beside those for each level of its documents. A
/// parse takes no more than this.
pub const CALL_STACK: usize = 8192;

/// How many bytes of stack a call takes at most for each level that its documents nest.
pub const LEVEL_STACK: usize = 1024;

/// The same of [`RawJsonb::set`], [`RawJsonb::insert`], [`RawJsonb::remove`] and
/// [`RawJsonb::concat`], for each level of the document and of the result.
pub const EDIT_LEVEL_STACK: usize = 2048;

/// The same of [`RawJsonb::merge_patch`].
pub const PATCH_LEVEL_STACK: usize = 2432;

/// How many bytes of stack a [`JsonPath`] takes at most, beside those for the levels of the
/// document. One that nests little takes less.
pub const PATH_STACK: usize = 1048576;

/// The version of the library: millions, thousands and ones. 9000 is 0.9.0.
///
/// ```
/// assert!(kohiblad::version() >= 9000);
/// ```
pub fn version() -> u32 {
    ffi::version()
}
