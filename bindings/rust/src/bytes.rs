//! Calls on any bytes, of which nothing is known. None looks deeper than
//! [`MAX_DEPTH`](crate::MAX_DEPTH), and than the stack of the thread carries
//! ([`depth_left`](crate::depth_left)): a document that nests deeper counts as bytes that are none.

use alloc::vec::Vec;
use core::cmp::Ordering;

use crate::{ffi, ComparableKey, Error, Kind, OwnedJsonb, RawJsonb};

/// Whether the bytes are a document.
///
/// ```
/// let row = kohiblad::OwnedJsonb::parse("[1, 2]", 64)?;
/// assert!(kohiblad::bytes::is_document(row.as_bytes()));
/// assert!(!kohiblad::bytes::is_document(b"[1, 2]"));
/// # Ok::<(), kohiblad::Error>(())
/// ```
pub fn is_document(bytes: &[u8]) -> bool {
    RawJsonb::new(bytes).is_ok()
}

/// The kind by the first two words. Nothing else is checked.
///
/// ```
/// use kohiblad::{bytes, Error, Kind};
///
/// assert_eq!(bytes::kind(&[0x40, 0, 0, 3]), Ok(Kind::Object(3)));
/// assert_eq!(bytes::kind(&[0x40]), Err(Error::InvalidEOF));
/// ```
///
/// # Errors
///
/// - [`Error::InvalidEOF`]: one of the words is cut.
/// - [`Error::InvalidJsonb`]: they are of no kind.
pub fn kind(bytes: &[u8]) -> Result<Kind, Error> {
    Kind::of(bytes)
}

/// The value of a key, as a document of its own; `None` if there is no such key or the bytes are no
/// object. The words that the look-up reads and the value are checked, and nothing else is: this is
/// several times faster than a check of the whole row.
///
/// ```
/// let row = kohiblad::OwnedJsonb::parse(r#"{"id": 7, "price": 1.50}"#, 64)?;
/// let price = kohiblad::bytes::get(row.as_bytes(), "price")?;
/// assert_eq!(price.expect("the row has a price").to_string(), "1.50");
/// # Ok::<(), kohiblad::Error>(())
/// ```
///
/// # Errors
///
/// - [`Error::InvalidEOF`], [`Error::InvalidJsonb`]: the bytes that were read are no document's, or
///   the value is none.
/// - [`Error::OutOfMemory`]: an allocation failed.
pub fn get(bytes: &[u8], name: &str) -> Result<Option<OwnedJsonb>, Error> {
    ffi::get(bytes, name)?.map(OwnedJsonb::new).transpose()
}

/// The order of any two byte strings by what they mean, which is total: documents as [`RawJsonb`]
/// orders them, then all other bytes, by their bytes.
///
/// ```
/// use std::cmp::Ordering;
///
/// let row = kohiblad::OwnedJsonb::parse("null", 0)?;
/// assert_eq!(kohiblad::bytes::compare(row.as_bytes(), b"none"), Ordering::Less);
/// # Ok::<(), kohiblad::Error>(())
/// ```
pub fn compare(left: &[u8], right: &[u8]) -> Ordering {
    ffi::compare(left, right, ffi::reading_depth())
}

/// The key of any bytes: keys are ordered as [`compare`] orders the bytes.
///
/// ```
/// assert_eq!(kohiblad::bytes::key(b"a")?.as_bytes(), [0xff, b'a', 0x01]);
/// # Ok::<(), kohiblad::Error>(())
/// ```
///
/// # Errors
///
/// - [`Error::OutOfMemory`]: an allocation failed.
pub fn key(bytes: &[u8]) -> Result<ComparableKey, Error> {
    ffi::key(bytes, ffi::reading_depth()).map(ComparableKey)
}

/// The numbers of the rows, from 0, in the order of [`compare`]; equal rows keep their order. Each
/// row is copied, and checked once, where a sort by [`compare`] checks both sides of each
/// comparison.
///
/// ```
/// use kohiblad::OwnedJsonb;
///
/// let rows = [OwnedJsonb::of(20)?, OwnedJsonb::of("a")?, OwnedJsonb::of(3)?];
/// assert_eq!(kohiblad::bytes::sorted_order(&rows)?, [2, 0, 1]);
/// # Ok::<(), kohiblad::Error>(())
/// ```
///
/// # Errors
///
/// - [`Error::OutOfMemory`]: an allocation failed.
pub fn sorted_order<I>(rows: I) -> Result<Vec<usize>, Error>
where
    I: IntoIterator,
    I::Item: AsRef<[u8]>,
{
    let mut copied = ffi::Rows::default();
    for row in rows {
        copied.push(row.as_ref())?;
    }
    ffi::sort(&copied)
}
