//! Safe functions that call the library's exports. All `unsafe` of the crate is here.
//!
//! The header kohiblad.h says what an export requires of its caller, which the safe functions keep:
//!
//! - a pointer is not null, and has as many bytes as the length after it says, which are readable,
//!   and writable if the call writes them: pointers and lengths come from slices, from references
//!   to whole structs, or from a new buffer and its capacity;
//! - what a call writes overlaps nothing else: it is a new buffer, a local, or an exclusive
//!   reference;
//! - nobody writes the input during the call: it is borrowed;
//! - the stack has room for the depth: each export that recurses takes one, which is at most
//!   [`MAX_DEPTH`] and what [`depth_left`] says.
//!
//! "As above" in a comment names these four.

use alloc::vec::Vec;
use core::cmp::Ordering;

pub(crate) use crate::exports::Cursor;
use crate::exports::*;
use crate::stack::{depth_left, depth_left_beside};
use crate::{Error, EDIT_LEVEL_STACK, LEVEL_STACK, MAX_DEPTH, PATCH_LEVEL_STACK, PATH_STACK};

const OK: u32 = 0;
const INVALID_EOF: u32 = 1;
const NO_ROOM: u32 = 11;
const NONE: u32 = 12;
const OTHER_KIND: u32 = 14;

/// The room that is tried first for a result of unknown length.
const FIRST_ROOM: usize = 64;

/// The room that is tried first for places of unknown number.
const FIRST_PLACES: usize = 16;

/// Whether numbers may have an exponent.
#[derive(Clone, Copy)]
pub(crate) enum Exponents {
    Forbidden = 0,
    Allowed = 1,
}

/// The attributes of a thread: 56 bytes on x86-64, and 64 on aarch64.
#[cfg(feature = "std")]
#[repr(C)]
#[derive(Default)]
struct ThreadAttributes {
    words: [u64; 8],
}

#[cfg(feature = "std")]
extern "C" {
    fn pthread_self() -> usize;
    fn pthread_getattr_np(thread: usize, attributes: *mut ThreadAttributes) -> i32;
    fn pthread_attr_getstack(
        attributes: *const ThreadAttributes,
        start: *mut *mut u8,
        size: *mut usize,
    ) -> i32;
    fn pthread_attr_destroy(attributes: *mut ThreadAttributes) -> i32;
}

/// An export from bytes to bytes, within a depth.
type Bounded = unsafe extern "C" fn(*const u8, usize, usize, *mut u8, usize, *mut usize) -> u32;

/// An export that makes bytes of two documents, within a depth.
type OfTwo = unsafe extern "C" fn(
    *const u8,
    usize,
    *const u8,
    usize,
    usize,
    *mut u8,
    usize,
    *mut usize,
) -> u32;

/// An export that says whether something is true of a document and other bytes, within a depth.
type Asking = unsafe extern "C" fn(*const u8, usize, *const u8, usize, usize) -> Truth;

/// An export that says what a path of SQL/JSON says of a document, within a depth.
type PathAsking =
    unsafe extern "C" fn(*const u8, usize, *const u8, usize, *const u8, usize, u32, usize) -> Truth;

/// An export from the text of a path to bytes.
type OfPathText = unsafe extern "C" fn(*const u8, usize, *mut u8, usize, *mut usize) -> u32;

/// An export that builds a document of rows, within a depth.
type Building = unsafe extern "C" fn(
    *const u8,
    usize,
    *const usize,
    usize,
    usize,
    *mut u8,
    usize,
    *mut usize,
) -> u32;

/// A child's payload, with the type of its entry.
#[derive(Clone, Copy)]
pub(crate) struct Part<'a> {
    pub(crate) entry_type: u32,
    pub(crate) payload: &'a [u8],
}

/// Where a child's payload is in bytes that are not all at hand, and the type of its entry.
pub(crate) struct Slice {
    pub(crate) entry_type: u32,
    pub(crate) offset: usize,
    pub(crate) length: usize,
}

/// How far a look-up comes in the beginning of bytes.
pub(crate) enum Progress {
    /// It needs the bytes up to this end, which is past those at hand.
    Needs(usize),
    Found(Slice),
    Absent,
}

/// A child, with its key if it is an object's.
pub(crate) struct Child<'a> {
    pub(crate) key: Option<&'a [u8]>,
    pub(crate) value: Part<'a>,
}

/// What is asked of a document by a path of SQL/JSON. No bytes are no variables.
#[derive(Clone, Copy, Debug)]
pub(crate) struct Asked<'a> {
    pub(crate) path: &'a str,
    pub(crate) variables: &'a [u8],
    pub(crate) is_silent: bool,
}

/// Byte strings one after another, with the offset of each and the end of the last.
#[derive(Default)]
pub(crate) struct Rows {
    bytes: Vec<u8>,
    /// Empty before the first row.
    offsets: Vec<usize>,
}

impl Rows {
    /// Appends a row.
    ///
    /// `OutOfMemory`: an allocation failed.
    pub(crate) fn push(&mut self, row: &[u8]) -> Result<(), Error> {
        self.bytes
            .try_reserve(row.len())
            .map_err(|_| Error::OutOfMemory)?;
        self.offsets
            .try_reserve(2)
            .map_err(|_| Error::OutOfMemory)?;
        if self.offsets.is_empty() {
            self.offsets.push(0);
        }
        self.bytes.extend_from_slice(row);
        self.offsets.push(self.bytes.len());
        Ok(())
    }

    pub(crate) fn len(&self) -> usize {
        self.offsets.len().saturating_sub(1)
    }
}

/// A new buffer with room for so many elements.
fn with_room<T>(room: usize) -> Result<Vec<T>, Error> {
    let mut out = Vec::new();
    out.try_reserve_exact(room)
        .map_err(|_| Error::OutOfMemory)?;
    Ok(out)
}

/// A copy of bytes.
pub(crate) fn copied(bytes: &[u8]) -> Result<Vec<u8>, Error> {
    let mut out = with_room(bytes.len())?;
    out.extend_from_slice(bytes);
    Ok(out)
}

fn tested(status: u32) -> Result<(), Error> {
    match status {
        OK => Ok(()),
        _ => Err(Error::of_status(status)),
    }
}

/// The result of a call, without the status `None`, which is no error.
fn optional<T>(status: u32, result: impl FnOnce() -> T) -> Result<Option<T>, Error> {
    match status {
        NONE => Ok(None),
        _ => tested(status).map(|()| Some(result())),
    }
}

/// The bytes that a call writes, which is repeated once if they do not fit the first room. The
/// call must write as many bytes to the buffer as it sets the length to, if its status is `OK`.
fn written(
    first_room: usize,
    mut call: impl FnMut(*mut u8, usize, &mut usize) -> u32,
) -> Result<(u32, Vec<u8>), Error> {
    let mut out = with_room(first_room)?;
    let mut length = 0;
    let mut status = call(out.as_mut_ptr(), out.capacity(), &mut length);
    if status == NO_ROOM {
        out = with_room(length)?;
        status = call(out.as_mut_ptr(), out.capacity(), &mut length);
    }
    if status == OK {
        assert!(
            length <= out.capacity(),
            "a result is not longer than its room"
        );
        // SAFETY: the call wrote so many bytes, which is what this function requires of it.
        unsafe { out.set_len(length) };
        out.shrink_to_fit();
    }
    Ok((status, out))
}

fn all_written(
    first_room: usize,
    call: impl FnMut(*mut u8, usize, &mut usize) -> u32,
) -> Result<Vec<u8>, Error> {
    let (status, out) = written(first_room, call)?;
    tested(status)?;
    Ok(out)
}

/// How many bytes of a document a level takes at least, but for the last one.
const LEVEL_SIZE: usize = 8;

/// How deep calls look that read a document.
pub(crate) fn reading_depth() -> usize {
    depth_left(LEVEL_STACK)
}

/// The depth within which a call reads these documents that takes so much stack for each level.
/// `TooDeep` if one nests deeper.
pub(crate) fn fitting(level_stack: usize, documents: &[&[u8]]) -> Result<usize, Error> {
    fitting_within(depth_left(level_stack), documents)
}

/// The depth, if no document nests deeper. `TooDeep` if one does.
fn fitting_within(depth: usize, documents: &[&[u8]]) -> Result<usize, Error> {
    let fits = |bytes: &&[u8]| {
        depth == MAX_DEPTH || bytes.len() / LEVEL_SIZE < depth || check(bytes, depth)
    };
    match documents.iter().all(fits) {
        true => Ok(depth),
        false => Err(Error::TooDeep),
    }
}

/// What an export makes of a document.
fn of_document(export: Bounded, bytes: &[u8], first_room: usize) -> Result<Vec<u8>, Error> {
    bounded(export, bytes, fitting(LEVEL_STACK, &[bytes])?, first_room)
}

/// What an export makes of bytes within a depth.
fn bounded(
    export: Bounded,
    bytes: &[u8],
    depth: usize,
    first_room: usize,
) -> Result<Vec<u8>, Error> {
    all_written(first_room, |out, room, length| {
        // SAFETY: as above; each `Bounded` export requires that alone, and writes `length` bytes.
        unsafe { export(bytes.as_ptr(), bytes.len(), depth, out, room, length) }
    })
}

/// What an export makes of two documents, which takes so much stack for each level.
fn of_two(
    export: OfTwo,
    level_stack: usize,
    (left, right): (&[u8], &[u8]),
    first_room: usize,
) -> Result<Vec<u8>, Error> {
    let depth = fitting(level_stack, &[left, right])?;
    all_written(first_room, |out, room, length| {
        // SAFETY: as above, of both; each `OfTwo` export requires that alone, and writes `length`
        // bytes.
        unsafe {
            export(
                left.as_ptr(),
                left.len(),
                right.as_ptr(),
                right.len(),
                depth,
                out,
                room,
                length,
            )
        }
    })
}

/// What an export builds of rows, none of which nests so deep that the result passes `MAX_DEPTH`.
fn built(export: Building, rows: &Rows) -> Result<Vec<u8>, Error> {
    let (bytes, offsets) = (&rows.bytes, &rows.offsets);
    // An entry for each row, and the header.
    let first_room = bytes.len() + 4 * rows.len() + 4;
    let depth = reading_depth().min(MAX_DEPTH - 1);
    all_written(first_room, |out, room, length| {
        // SAFETY: as above; each `Building` export requires that alone, and writes `length` bytes.
        unsafe {
            export(
                bytes.as_ptr(),
                bytes.len(),
                offsets.as_ptr(),
                offsets.len(),
                depth,
                out,
                room,
                length,
            )
        }
    })
}

/// The bytes at a place that a call returned with `OK`, which is inside the bytes. So both numbers
/// fit a `usize`.
fn bytes_at(bytes: &[u8], offset: u64, length: u64) -> &[u8] {
    &bytes[offset as usize..][..length as usize]
}

fn part_at<'a>(bytes: &'a [u8], place: &Place) -> Part<'a> {
    Part {
        entry_type: place.r#type,
        payload: bytes_at(bytes, place.offset, place.length),
    }
}

/// The addresses of the stack of the thread; none if they are not to be had.
#[cfg(feature = "std")]
pub(crate) fn stack_of_thread() -> core::ops::Range<usize> {
    let mut attributes = ThreadAttributes::default();
    let (mut start, mut size) = (core::ptr::null_mut(), 0);
    // SAFETY: the attributes have at least the size and the alignment of the C library's, and are
    // read and destroyed only if they were made.
    unsafe {
        if pthread_getattr_np(pthread_self(), &mut attributes) != 0 {
            return 0..0;
        }
        let status = pthread_attr_getstack(&attributes, &mut start, &mut size);
        pthread_attr_destroy(&mut attributes);
        if status != 0 {
            return 0..0;
        }
    }
    let start = start as usize;
    start..start + size
}

pub(crate) fn version() -> u32 {
    // SAFETY: the call takes nothing.
    unsafe { kohiblad_version() }
}

#[cfg(test)]
pub(crate) fn status_name(status: u32) -> alloc::string::String {
    let name = all_written(FIRST_ROOM, |out, room, length| {
        // SAFETY: as above; the call writes `length` bytes.
        unsafe { kohiblad_status_name(status, out, room, length) }
    });
    alloc::string::String::from_utf8(name.unwrap()).unwrap()
}

pub(crate) fn check(bytes: &[u8], depth: usize) -> bool {
    // SAFETY: as above.
    unsafe { kohiblad_check(bytes.as_ptr(), bytes.len(), depth.min(reading_depth())) }
}

pub(crate) fn is_canonical(bytes: &[u8]) -> Result<bool, Error> {
    let depth = fitting(LEVEL_STACK, &[bytes])?;
    // SAFETY: as above.
    Ok(unsafe { kohiblad_is_canonical(bytes.as_ptr(), bytes.len(), depth) })
}

/// The order of documents within a depth, and of bytes that are none.
pub(crate) fn compare(left: &[u8], right: &[u8], depth: usize) -> Ordering {
    // SAFETY: as above, of both.
    let sign = unsafe {
        kohiblad_compare(
            left.as_ptr(),
            left.len(),
            right.as_ptr(),
            right.len(),
            depth,
        )
    };
    sign.cmp(&0)
}

/// The number of the kind, and the count.
pub(crate) fn kind(bytes: &[u8]) -> Result<(u32, usize), Error> {
    // SAFETY: as above.
    let kind = unsafe { kohiblad_kind(bytes.as_ptr(), bytes.len()) };
    tested(kind.status)?;
    // A count has 29 bits.
    Ok((kind.kind, kind.count as usize))
}

pub(crate) fn get(bytes: &[u8], name: &str) -> Result<Option<Vec<u8>>, Error> {
    let (status, value) = written(FIRST_ROOM, |out, room, length| {
        // SAFETY: as above; the call writes `length` bytes.
        unsafe {
            kohiblad_get_key(
                bytes.as_ptr(),
                bytes.len(),
                name.as_ptr(),
                name.len(),
                out,
                room,
                length,
            )
        }
    })?;
    optional(status, || value)
}

pub(crate) fn find<'a>(bytes: &'a [u8], name: &str) -> Result<Option<Part<'a>>, Error> {
    // SAFETY: as above, of the bytes and the name.
    let place =
        unsafe { kohiblad_find_key(bytes.as_ptr(), bytes.len(), name.as_ptr(), name.len()) };
    optional(place.status, || part_at(bytes, &place))
}

/// The place of a value, which is inside of all bytes, or the end of those that are needed first: so
/// the numbers fit a `usize`.
fn progress_of(place: &Place) -> Result<Progress, Error> {
    let (offset, length) = (place.offset as usize, place.length as usize);
    match place.status {
        INVALID_EOF if length > 0 => Ok(Progress::Needs(length)),
        NONE => Ok(Progress::Absent),
        status => tested(status).map(|()| {
            Progress::Found(Slice {
                entry_type: place.r#type,
                offset,
                length,
            })
        }),
    }
}

/// Looks a key up in `size` bytes that begin with the prefix.
pub(crate) fn find_key_in_prefix(
    prefix: &[u8],
    size: usize,
    name: &str,
) -> Result<Progress, Error> {
    // SAFETY: as above, of the prefix and the name. Of the rest only the size is taken.
    let place = unsafe {
        kohiblad_find_key_in_prefix(
            prefix.as_ptr(),
            prefix.len(),
            size,
            name.as_ptr(),
            name.len(),
        )
    };
    progress_of(&place)
}

/// Looks an item up in `size` bytes that begin with the prefix.
pub(crate) fn find_index_in_prefix(
    prefix: &[u8],
    size: usize,
    index: usize,
) -> Result<Progress, Error> {
    // SAFETY: as above, of the prefix. Of the rest only the size is taken.
    let place =
        unsafe { kohiblad_find_index_in_prefix(prefix.as_ptr(), prefix.len(), size, index) };
    progress_of(&place)
}

/// A cursor before the first child, of which there is none if the bytes are no array or object.
pub(crate) fn begin(bytes: &[u8]) -> Result<Option<Cursor>, Error> {
    let mut cursor = Cursor::default();
    // SAFETY: as above; the cursor is a local.
    let status = unsafe { kohiblad_begin(bytes.as_ptr(), bytes.len(), &mut cursor) };
    optional(status, || cursor)
}

/// The child at the cursor, which is then moved after it.
pub(crate) fn next<'a>(bytes: &'a [u8], cursor: &mut Cursor) -> Result<Option<Child<'a>>, Error> {
    let (mut key, mut value) = (Place::default(), Place::default());
    // SAFETY: as above; the cursor is borrowed exclusively, and both places are locals.
    let status =
        unsafe { kohiblad_next(bytes.as_ptr(), bytes.len(), cursor, &mut key, &mut value) };
    optional(status, || Child {
        key: (key.status == OK).then(|| bytes_at(bytes, key.offset, key.length)),
        value: part_at(bytes, &value),
    })
}

/// Writes the document of a part to the start of the buffer, which must have room for it, and
/// returns how many bytes it has.
pub(crate) fn of_part(part: Part<'_>, out: &mut [u8]) -> Result<usize, Error> {
    let payload = part.payload;
    let mut length = 0;
    // SAFETY: as above, of the payload and the buffer.
    let status = unsafe {
        kohiblad_copy(
            part.entry_type,
            payload.as_ptr(),
            payload.len(),
            out.as_mut_ptr(),
            out.len(),
            &mut length,
        )
    };
    tested(status)?;
    Ok(length)
}

/// The document of a part.
pub(crate) fn document_of_part(part: Part<'_>) -> Result<Vec<u8>, Error> {
    let payload = part.payload;
    // The document of a scalar has 8 bytes more.
    all_written(payload.len().saturating_add(8), |out, room, length| {
        // SAFETY: as above, of the payload; the call writes `length` bytes.
        unsafe {
            kohiblad_copy(
                part.entry_type,
                payload.as_ptr(),
                payload.len(),
                out,
                room,
                length,
            )
        }
    })
}

pub(crate) fn array_item(bytes: &[u8], index: usize) -> Result<Option<Vec<u8>>, Error> {
    let (status, item) = written(FIRST_ROOM, |out, room, length| {
        // SAFETY: as above; the call writes `length` bytes.
        unsafe { kohiblad_get_index(bytes.as_ptr(), bytes.len(), index, out, room, length) }
    })?;
    optional(status, || item)
}

/// A key's text, and the document of its value.
pub(crate) struct Member {
    pub(crate) key: Vec<u8>,
    pub(crate) value: Vec<u8>,
}

pub(crate) fn object_member(bytes: &[u8], index: usize) -> Result<Option<Member>, Error> {
    let (mut key, mut value) = (with_room(FIRST_ROOM)?, with_room(FIRST_ROOM)?);
    let (mut status, key_length, length) = write_member(bytes, index, &mut key, &mut value);
    if status == NO_ROOM {
        (key, value) = (with_room(key_length)?, with_room(length)?);
        (status, ..) = write_member(bytes, index, &mut key, &mut value);
    }
    optional(status, || Member { key, value })
}

/// Writes a key and the document of its value to two empty buffers, and returns the lengths of
/// both, also if they do not fit.
fn write_member(
    bytes: &[u8],
    index: usize,
    key: &mut Vec<u8>,
    value: &mut Vec<u8>,
) -> (u32, usize, usize) {
    let (mut key_length, mut length) = (0, 0);
    // SAFETY: as above, of the bytes, both buffers and their lengths.
    let status = unsafe {
        kohiblad_get_member(
            bytes.as_ptr(),
            bytes.len(),
            index,
            key.as_mut_ptr(),
            key.capacity(),
            &mut key_length,
            value.as_mut_ptr(),
            value.capacity(),
            &mut length,
        )
    };
    if status == OK {
        assert!(key_length <= key.capacity() && length <= value.capacity());
        // SAFETY: the call wrote so many bytes to each.
        unsafe {
            key.set_len(key_length);
            value.set_len(length);
        }
    }
    (status, key_length, length)
}

/// The digits and the scale.
pub(crate) fn number(bytes: &[u8]) -> Result<(i128, u32), Error> {
    // SAFETY: as above.
    let number = unsafe { kohiblad_as_decimal(bytes.as_ptr(), bytes.len()) };
    tested(number.status)?;
    let digits = (i128::from(number.high) << 64) | i128::from(number.low);
    Ok((digits, number.scale))
}

pub(crate) fn int64(bytes: &[u8]) -> Result<i64, Error> {
    // SAFETY: as above.
    let integer = unsafe { kohiblad_as_int64(bytes.as_ptr(), bytes.len()) };
    tested(integer.status)?;
    Ok(integer.value)
}

pub(crate) fn text(bytes: &[u8]) -> Result<&[u8], Error> {
    // SAFETY: as above.
    let place = unsafe { kohiblad_as_string(bytes.as_ptr(), bytes.len()) };
    tested(place.status)?;
    Ok(bytes_at(bytes, place.offset, place.length))
}

pub(crate) fn boolean(bytes: &[u8]) -> Result<bool, Error> {
    // SAFETY: as above.
    let truth = unsafe { kohiblad_as_boolean(bytes.as_ptr(), bytes.len()) };
    tested(truth.status)?;
    Ok(truth.value != 0)
}

/// An extension value: its tag, and the fields and data that the tag has. Others are 0 and empty.
#[derive(Default)]
pub(crate) struct Fields<'a> {
    pub(crate) tag: u32,
    pub(crate) value: i64,
    pub(crate) months: i32,
    pub(crate) days: i32,
    pub(crate) seconds: i32,
    pub(crate) data: &'a [u8],
}

pub(crate) fn extension(bytes: &[u8]) -> Result<Fields<'_>, Error> {
    // SAFETY: as above.
    let extension = unsafe { kohiblad_as_extension(bytes.as_ptr(), bytes.len()) };
    tested(extension.status)?;
    Ok(Fields {
        tag: extension.tag,
        value: extension.value,
        months: extension.months,
        days: extension.days,
        seconds: extension.seconds,
        data: bytes_at(bytes, extension.offset, extension.length),
    })
}

pub(crate) fn of_null() -> Result<Vec<u8>, Error> {
    all_written(FIRST_ROOM, |out, room, length| {
        // SAFETY: as above; the call writes `length` bytes.
        unsafe { kohiblad_of_null(out, room, length) }
    })
}

pub(crate) fn of_boolean(value: bool) -> Result<Vec<u8>, Error> {
    all_written(FIRST_ROOM, |out, room, length| {
        // SAFETY: as above; the call writes `length` bytes.
        unsafe { kohiblad_of_boolean(u32::from(value), out, room, length) }
    })
}

pub(crate) fn of_text(text: &str) -> Result<Vec<u8>, Error> {
    all_written(FIRST_ROOM, |out, room, length| {
        // SAFETY: as above; the call writes `length` bytes.
        unsafe { kohiblad_of_string(text.as_ptr(), text.len(), out, room, length) }
    })
}

pub(crate) fn of_decimal(digits: i128, scale: u8) -> Result<Vec<u8>, Error> {
    // The two halves: the number is high * 2^64 + low.
    let (high, low) = ((digits >> 64) as i64, digits as u64);
    all_written(FIRST_ROOM, |out, room, length| {
        // SAFETY: as above; the call writes `length` bytes.
        unsafe { kohiblad_of_decimal(high, low, u32::from(scale), out, room, length) }
    })
}

pub(crate) fn of_extension(fields: &Fields<'_>) -> Result<Vec<u8>, Error> {
    all_written(FIRST_ROOM, |out, room, length| {
        // SAFETY: as above, of the data; the call writes `length` bytes.
        unsafe {
            kohiblad_of_extension(
                fields.tag,
                fields.value,
                fields.months,
                fields.days,
                fields.seconds,
                fields.data.as_ptr(),
                fields.data.len(),
                out,
                room,
                length,
            )
        }
    })
}

pub(crate) fn parse(text: &[u8], depth: usize, exponents: Exponents) -> Result<Vec<u8>, Error> {
    let depth = depth.min(reading_depth());
    let (bytes, size) = (text.as_ptr(), text.len());
    // The header: the result is shorter than so many times the text plus 8 bytes.
    let most = match exponents {
        Exponents::Forbidden => 4,
        Exponents::Allowed => 5,
    };
    let room = text.len().saturating_mul(most).saturating_add(8);
    all_written(room, |out, room, length| {
        // SAFETY: as above; the export writes `length` bytes.
        unsafe { kohiblad_parse(bytes, size, depth, exponents as u32, out, room, length) }
    })
    .map_err(|error| match error {
        Error::InvalidJson { .. } => text_fault(text, depth, exponents).unwrap_or(error),
        other => other,
    })
}

/// Why a text is no JSON, and where; `None` if it is JSON.
pub(crate) fn text_fault(text: &[u8], depth: usize, exponents: Exponents) -> Option<Error> {
    let (bytes, size) = (text.as_ptr(), text.len());
    let depth = depth.min(reading_depth());
    // SAFETY: as above.
    let fault = unsafe { kohiblad_text_fault(bytes, size, depth, exponents as u32) };
    // The offset is in the text, so it fits a `usize`.
    (fault.status != OK).then(|| Error::of_fault(fault.status, fault.offset as usize))
}

/// The classes of what may come where a text is no JSON, 0 if an allocation fails.
pub(crate) fn text_expected(text: &[u8], depth: usize, exponents: Exponents) -> u32 {
    let (bytes, size) = (text.as_ptr(), text.len());
    let depth = depth.min(reading_depth());
    // SAFETY: as above.
    unsafe { kohiblad_text_expected(bytes, size, depth, exponents as u32) }.classes
}

pub(crate) fn to_string(bytes: &[u8]) -> Result<Vec<u8>, Error> {
    of_document(kohiblad_print, bytes, bytes.len())
}

/// The compact text of a part.
pub(crate) fn text_of_part(part: Part<'_>) -> Result<Vec<u8>, Error> {
    let payload = part.payload;
    let depth = reading_depth();
    all_written(payload.len() + FIRST_ROOM, |out, room, length| {
        // SAFETY: as above, of the payload; the call writes `length` bytes.
        unsafe {
            kohiblad_print_at(
                part.entry_type,
                payload.as_ptr(),
                payload.len(),
                depth,
                out,
                room,
                length,
            )
        }
    })
}

pub(crate) fn to_pretty(bytes: &[u8]) -> Result<Vec<u8>, Error> {
    of_document(kohiblad_pretty, bytes, 2 * bytes.len())
}

pub(crate) fn to_canonical(bytes: &[u8]) -> Result<Vec<u8>, Error> {
    of_document(kohiblad_canonical, bytes, bytes.len())
}

/// The key of a document within a depth, and of bytes that are none.
pub(crate) fn key(bytes: &[u8], depth: usize) -> Result<Vec<u8>, Error> {
    bounded(kohiblad_key, bytes, depth, bytes.len())
}

/// Writes the beginning of the key; returns the length of the whole.
pub(crate) fn key_cut(bytes: &[u8], out: &mut [u8]) -> Result<usize, Error> {
    let depth = fitting(LEVEL_STACK, &[bytes])?;
    let mut length = 0;
    // SAFETY: as above, of the bytes and the buffer. The status is always `OK`.
    unsafe {
        kohiblad_key_cut(
            bytes.as_ptr(),
            bytes.len(),
            depth,
            out.as_mut_ptr(),
            out.len(),
            &mut length,
        )
    };
    Ok(length)
}

pub(crate) fn member_key(bytes: &[u8], names: &[u8]) -> Result<Vec<u8>, Error> {
    of_two(
        kohiblad_member_key,
        LEVEL_STACK,
        (bytes, names),
        bytes.len(),
    )
}

pub(crate) fn build_array(rows: &Rows) -> Result<Vec<u8>, Error> {
    built(kohiblad_build_array, rows)
}

pub(crate) fn build_object(rows: &Rows) -> Result<Vec<u8>, Error> {
    built(kohiblad_build_object, rows)
}

pub(crate) fn contains(left: &[u8], right: &[u8], steps: usize) -> Result<bool, Error> {
    let depth = fitting(LEVEL_STACK, &[left, right])?;
    // SAFETY: as above, of both.
    let truth = unsafe {
        kohiblad_contains(
            left.as_ptr(),
            left.len(),
            right.as_ptr(),
            right.len(),
            depth,
            steps,
        )
    };
    tested(truth.status)?;
    Ok(truth.value != 0)
}

pub(crate) fn exists(bytes: &[u8], key: &str) -> Result<bool, Error> {
    asked(kohiblad_exists, bytes, key.as_bytes())
}

/// Whether one of the names in a document of them is a key.
pub(crate) fn exists_any(bytes: &[u8], names: &[u8]) -> Result<bool, Error> {
    asked(kohiblad_exists_any, bytes, names)
}

/// Whether all of the names in a document of them are keys.
pub(crate) fn exists_all(bytes: &[u8], names: &[u8]) -> Result<bool, Error> {
    asked(kohiblad_exists_all, bytes, names)
}

fn asked(export: Asking, left: &[u8], right: &[u8]) -> Result<bool, Error> {
    let depth = fitting(LEVEL_STACK, &[left, right])?;
    // SAFETY: as above, of both.
    let truth = unsafe {
        export(
            left.as_ptr(),
            left.len(),
            right.as_ptr(),
            right.len(),
            depth,
        )
    };
    tested(truth.status)?;
    Ok(truth.value != 0)
}

/// The result may nest one level deeper than [`MAX_DEPTH`].
pub(crate) fn concat(left: &[u8], right: &[u8]) -> Result<Vec<u8>, Error> {
    // A header, and entries of values that become items.
    let first_room = left.len() + right.len() + 12;
    of_two(kohiblad_concat, EDIT_LEVEL_STACK, (left, right), first_room)
}

/// The result nests no deeper than the deeper of both.
pub(crate) fn merge_patch(target: &[u8], patch: &[u8]) -> Result<Vec<u8>, Error> {
    of_two(
        kohiblad_merge_patch,
        PATCH_LEVEL_STACK,
        (target, patch),
        target.len() + patch.len(),
    )
}

/// The result nests no deeper than the document.
pub(crate) fn strip_nulls(bytes: &[u8]) -> Result<Vec<u8>, Error> {
    of_document(kohiblad_strip_nulls, bytes, bytes.len())
}

/// Which members are kept.
#[derive(Clone, Copy)]
pub(crate) enum Kept {
    Named = 0,
    Others = 1,
}

/// The result nests no deeper than the document.
pub(crate) fn pick(bytes: &[u8], names: &[u8], kept: Kept) -> Result<Vec<u8>, Error> {
    let depth = fitting(LEVEL_STACK, &[bytes, names])?;
    all_written(bytes.len(), |out, room, length| {
        // SAFETY: as above, of the bytes and the names; the call writes `length` bytes.
        unsafe {
            kohiblad_pick(
                bytes.as_ptr(),
                bytes.len(),
                names.as_ptr(),
                names.len(),
                kept as u32,
                depth,
                out,
                room,
                length,
            )
        }
    })
}

/// `None` if the document is no object.
pub(crate) fn object_keys(bytes: &[u8]) -> Result<Option<Vec<u8>>, Error> {
    let depth = fitting(LEVEL_STACK, &[bytes])?;
    let (status, keys) = written(bytes.len(), |out, room, length| {
        // SAFETY: as above; the call writes `length` bytes.
        unsafe { kohiblad_object_keys(bytes.as_ptr(), bytes.len(), depth, out, room, length) }
    })?;
    optional(status, || keys)
}

/// The result of these three may nest one level deeper than [`MAX_DEPTH`], if the first document is
/// no array.
pub(crate) fn array_distinct(bytes: &[u8]) -> Result<Vec<u8>, Error> {
    of_document(kohiblad_array_distinct, bytes, bytes.len() + 4)
}

pub(crate) fn array_intersection(left: &[u8], right: &[u8]) -> Result<Vec<u8>, Error> {
    of_two(
        kohiblad_array_intersection,
        LEVEL_STACK,
        (left, right),
        left.len() + 8,
    )
}

pub(crate) fn array_except(left: &[u8], right: &[u8]) -> Result<Vec<u8>, Error> {
    of_two(
        kohiblad_array_except,
        LEVEL_STACK,
        (left, right),
        left.len() + 8,
    )
}

pub(crate) fn array_overlap(left: &[u8], right: &[u8]) -> Result<bool, Error> {
    asked(kohiblad_array_overlap, left, right)
}

/// What is done at the end of a path.
#[derive(Clone, Copy)]
pub(crate) enum Edit {
    Put = 0,
    Insert = 1,
    Remove = 2,
}

/// The result may nest as deep as the path is long and the value nests together. No value is read
/// to remove.
pub(crate) fn edit(bytes: &[u8], path: &[u8], edit: Edit, value: &[u8]) -> Result<Vec<u8>, Error> {
    let depth = fitting(EDIT_LEVEL_STACK, &[bytes, path, value])?;
    let first_room = bytes.len() + path.len() + value.len();
    all_written(first_room, |out, room, length| {
        // SAFETY: as above, of the bytes, the path and the value; the call writes `length` bytes.
        unsafe {
            kohiblad_edit(
                bytes.as_ptr(),
                bytes.len(),
                path.as_ptr(),
                path.len(),
                edit as u32,
                value.as_ptr(),
                value.len(),
                depth,
                out,
                room,
                length,
            )
        }
    })
}

/// The value at the end of a path, which is a document.
pub(crate) fn get_path<'a>(bytes: &'a [u8], path: &[u8]) -> Result<Option<Part<'a>>, Error> {
    let depth = fitting(LEVEL_STACK, &[bytes, path])?;
    // SAFETY: as above, of the bytes and the path.
    let place = unsafe {
        kohiblad_get_path(
            bytes.as_ptr(),
            bytes.len(),
            path.as_ptr(),
            path.len(),
            depth,
        )
    };
    optional(place.status, || part_at(bytes, &place))
}

/// The bytes of a path that may nest it, and what each takes of stack at most.
const NESTING: &[u8] = b"([?!+-*/%<>=&|";
const PATH_LEVEL_STACK: usize = 12 << 10;

/// What a path takes of stack at most. `TooDeep` if the thread has less.
fn stack_of_path(path: &str) -> Result<usize, Error> {
    let nesting = path.bytes().filter(|byte| NESTING.contains(byte)).count();
    let stack = (2 + nesting).saturating_mul(PATH_LEVEL_STACK);
    let stack = stack.min(PATH_STACK);
    match depth_left_beside(stack, 1) {
        0 => Err(Error::TooDeep),
        _ => Ok(stack),
    }
}

/// The depth within which a path is asked of a document. `TooDeep` if the stack that is left does
/// not carry the path, and beside it the document or the variables.
fn depth_of_path(bytes: &[u8], asked: &Asked<'_>) -> Result<usize, Error> {
    let stack = stack_of_path(asked.path)?;
    let depth = depth_left_beside(stack, LEVEL_STACK);
    fitting_within(depth, &[bytes, asked.variables])
}

/// The document of the array of all values that a path gives.
pub(crate) fn path_query(bytes: &[u8], asked: &Asked<'_>) -> Result<Vec<u8>, Error> {
    let depth = depth_of_path(bytes, asked)?;
    let Asked {
        path, variables, ..
    } = asked;
    all_written(FIRST_ROOM, |out, room, length| {
        // SAFETY: as above, of the document, the path and the variables, and the stack carries the
        // path; the call writes `length` bytes.
        unsafe {
            kohiblad_path_query(
                bytes.as_ptr(),
                bytes.len(),
                path.as_ptr(),
                path.len(),
                variables.as_ptr(),
                variables.len(),
                asked.is_silent.into(),
                depth,
                out,
                room,
                length,
            )
        }
    })
}

pub(crate) fn path_exists(bytes: &[u8], asked: &Asked<'_>) -> Result<Option<bool>, Error> {
    path_truth(kohiblad_path_exists, bytes, asked)
}

pub(crate) fn path_match(bytes: &[u8], asked: &Asked<'_>) -> Result<Option<bool>, Error> {
    path_truth(kohiblad_path_match, bytes, asked)
}

/// What an export says of a document; `None` if that is not known.
fn path_truth(export: PathAsking, bytes: &[u8], asked: &Asked<'_>) -> Result<Option<bool>, Error> {
    let depth = depth_of_path(bytes, asked)?;
    let Asked {
        path, variables, ..
    } = asked;
    // SAFETY: as above, of the document, the path and the variables, and the stack carries the
    // path; each `PathAsking` export requires that alone.
    let truth = unsafe {
        export(
            bytes.as_ptr(),
            bytes.len(),
            path.as_ptr(),
            path.len(),
            variables.as_ptr(),
            variables.len(),
            asked.is_silent.into(),
            depth,
        )
    };
    optional(truth.status, || truth.value != 0)
}

/// The text of a path as PostgreSQL prints it.
pub(crate) fn path_print(path: &str) -> Result<Vec<u8>, Error> {
    of_path_text(kohiblad_path_print, path)
}

/// Why a text is no path, in words.
pub(crate) fn path_report(path: &str) -> Result<Vec<u8>, Error> {
    of_path_text(kohiblad_path_report, path)
}

fn of_path_text(export: OfPathText, path: &str) -> Result<Vec<u8>, Error> {
    stack_of_path(path)?;
    all_written(path.len() + FIRST_ROOM, |out, room, length| {
        // SAFETY: as above, of the path, which the stack carries; each `OfPathText` export requires
        // that alone, and writes `length` bytes.
        unsafe { export(path.as_ptr(), path.len(), out, room, length) }
    })
}

/// The error of a text that is no path.
pub(crate) fn path_fault(path: &str) -> Error {
    if let Err(error) = stack_of_path(path) {
        return error;
    }
    // SAFETY: as above, of the path, which the stack carries.
    let fault = unsafe { kohiblad_path_fault(path.as_ptr(), path.len()) };
    match fault.status {
        // Within the text.
        OTHER_KIND => Error::InvalidPath {
            offset: fault.offset as usize,
        },
        status => Error::of_status(status),
    }
}

/// What is made of the values that an older path text selects in at most so many steps.
pub(crate) fn select_within<'a, T>(
    bytes: &'a [u8],
    path: &str,
    steps: usize,
    made_of: impl Fn(Part<'a>) -> T,
) -> Result<Vec<T>, Error> {
    let depth = fitting(LEVEL_STACK, &[bytes])?;
    let mut places: Vec<Place> = with_room(FIRST_PLACES)?;
    let mut count = 0;
    loop {
        // SAFETY: as above, of the bytes, the path and the buffer for the places.
        let status = unsafe {
            kohiblad_select_within(
                bytes.as_ptr(),
                bytes.len(),
                path.as_ptr(),
                path.len(),
                depth,
                steps,
                places.as_mut_ptr(),
                places.capacity(),
                &mut count,
            )
        };
        if status != NO_ROOM {
            tested(status)?;
            break;
        }
        places = with_room(count)?;
    }
    assert!(
        count <= places.capacity(),
        "places are not more than their room"
    );
    // SAFETY: the call wrote so many places.
    unsafe { places.set_len(count) };
    let mut values = with_room(count)?;
    values.extend(places.iter().map(|place| made_of(part_at(bytes, place))));
    Ok(values)
}

pub(crate) fn index_keys(bytes: &[u8]) -> Result<Vec<u64>, Error> {
    let depth = fitting(LEVEL_STACK, &[bytes])?;
    // There is at most one for each four bytes.
    let mut keys = with_room(bytes.len() / 4)?;
    let mut count = 0;
    // SAFETY: as above, of the bytes and the buffer for the keys.
    let status = unsafe {
        kohiblad_index_keys(
            bytes.as_ptr(),
            bytes.len(),
            depth,
            keys.as_mut_ptr(),
            keys.capacity(),
            &mut count,
        )
    };
    tested(status)?;
    assert!(
        count <= keys.capacity(),
        "keys are not more than their room"
    );
    // SAFETY: the call wrote so many keys.
    unsafe { keys.set_len(count) };
    keys.shrink_to_fit();
    Ok(keys)
}

pub(crate) fn sort(rows: &Rows) -> Result<Vec<usize>, Error> {
    let depth = reading_depth();
    let count = rows.len();
    let mut order = with_room(count)?;
    // SAFETY: as above, of the rows, their offsets and the buffer for the order.
    let status = unsafe {
        kohiblad_sort(
            rows.bytes.as_ptr(),
            rows.bytes.len(),
            rows.offsets.as_ptr(),
            rows.offsets.len(),
            depth,
            order.as_mut_ptr(),
            order.capacity(),
        )
    };
    tested(status)?;
    // SAFETY: the call wrote a number for each row.
    unsafe { order.set_len(count) };
    Ok(order)
}
