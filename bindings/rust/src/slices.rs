//! A look-up in a document of which only the slices that it needs are read.

use alloc::vec::Vec;

use crate::node::TYPE_CONTAINER;
use crate::{ffi, Error, Kind, Node, OwnedJsonb, Path};

/// So many bytes are read at once, of which most documents have their keys in the first.
const LEAST_READ: usize = 4096;

/// The value at the end of a path in a document of `size` bytes, as a document of its own; `None`
/// if the path leads nowhere. No more of a long document is read than that takes: the entry words
/// and keys of each array and object on the way, and the value.
///
/// `read(at, out)` fills `out` with the bytes of the document from `at` on, as from a file:
///
/// ```
/// use kohiblad::{read_path, OwnedJsonb, Path};
/// use std::io::{Cursor, Read, Seek, SeekFrom};
///
/// let row = OwnedJsonb::parse(r#"{"id": 7, "tags": ["a", {"of": null}]}"#, 64)?.into_bytes();
/// let (size, mut file) = (row.len(), Cursor::new(row));
/// let read = |at: usize, out: &mut [u8]| {
///     file.seek(SeekFrom::Start(at as u64))?;
///     file.read_exact(out)
/// };
/// let tag = read_path(size, read, &Path::new().key("tags").index(-1))?;
/// assert_eq!(tag.expect("there are two tags").to_string(), r#"{"of":null}"#);
/// # Ok::<(), Box<dyn std::error::Error>>(())
/// ```
///
/// # Errors
///
/// Those of `read`, which the errors of the crate are turned into:
///
/// - [`Error::InvalidEOF`], [`Error::InvalidJsonb`]: what was read shows that there is no document.
///   The value is checked, and of the rest what a look-up reads.
/// - [`Error::OutOfMemory`]: an allocation failed.
pub fn read_path<E: From<Error>>(
    size: usize,
    read: impl FnMut(usize, &mut [u8]) -> Result<(), E>,
    path: &Path,
) -> Result<Option<OwnedJsonb>, E> {
    let path = path.to_document()?;
    let mut slices = Slices::of(read);
    let mut value = ffi::Slice {
        entry_type: TYPE_CONTAINER,
        offset: 0,
        length: size,
    };
    for step in path.as_raw().items().into_iter().flatten() {
        match slices.find(&value, &step)? {
            Some(child) => value = child,
            None => return Ok(None),
        }
    }
    slices.value(&value).map(Some)
}

/// The bytes of a document, of which those that were read last are kept.
struct Slices<R> {
    read: R,
    begin: usize,
    bytes: Vec<u8>,
}

impl<E: From<Error>, R: FnMut(usize, &mut [u8]) -> Result<(), E>> Slices<R> {
    fn of(read: R) -> Self {
        Slices {
            read,
            begin: 0,
            bytes: Vec::new(),
        }
    }

    /// So many bytes from a place on.
    fn bytes(&mut self, begin: usize, size: usize) -> Result<&[u8], E> {
        // What was read before the place, or all if the place is elsewhere.
        let passed = match begin.checked_sub(self.begin) {
            Some(passed) => passed.min(self.bytes.len()),
            None => self.bytes.len(),
        };
        self.bytes.drain(..passed);
        self.begin = begin;
        let known = self.bytes.len();
        if known < size {
            self.bytes
                .try_reserve_exact(size - known)
                .map_err(|_| Error::OutOfMemory)?;
            self.bytes.resize(size, 0);
            (self.read)(begin + known, &mut self.bytes[known..])?;
        }
        Ok(&self.bytes[..size])
    }

    /// The child to which a step leads.
    fn find(&mut self, value: &ffi::Slice, step: &Node<'_>) -> Result<Option<ffi::Slice>, E> {
        if value.entry_type != TYPE_CONTAINER {
            return Ok(None);
        }
        let mut needed = value.length.min(LEAST_READ);
        loop {
            let prefix = self.bytes(value.offset, needed)?;
            match find_in(prefix, value.length, step)? {
                ffi::Progress::Needs(end) => needed = end,
                ffi::Progress::Found(mut child) => {
                    child.offset += value.offset;
                    return Ok(Some(child));
                }
                ffi::Progress::Absent => return Ok(None),
            }
        }
    }

    /// The document of a value, which is checked.
    fn value(&mut self, value: &ffi::Slice) -> Result<OwnedJsonb, E> {
        let payload = self.bytes(value.offset, value.length)?;
        let document = ffi::document_of_part(ffi::Part {
            entry_type: value.entry_type,
            payload,
        })?;
        Ok(OwnedJsonb::new(document)?)
    }
}

/// How far a step leads in a container of so many bytes that begin with a prefix.
fn find_in(prefix: &[u8], size: usize, step: &Node<'_>) -> Result<ffi::Progress, Error> {
    match step {
        Node::String(name) => ffi::find_key_in_prefix(prefix, size, name),
        Node::Number(number) => match index_in(prefix, number.digits)? {
            Some(index) => ffi::find_index_in_prefix(prefix, size, index),
            None => Ok(ffi::Progress::Absent),
        },
        other => unreachable!("no step of a path is {other:?}"),
    }
}

/// The index from the beginning that an index means, if there is one.
fn index_in(prefix: &[u8], index: i128) -> Result<Option<usize>, Error> {
    let from_begin = match Kind::of(prefix)? {
        Kind::Array(count) if index < 0 => index + count as i128,
        _ => index,
    };
    Ok(usize::try_from(from_begin).ok())
}
