use alloc::string::String;
use alloc::vec::Vec;
use core::cmp::Ordering;
use core::fmt;
use core::hash::{Hash, Hasher};
use core::str::FromStr;

use crate::ffi::{self, Exponents};
use crate::{Error, ExtensionValue, Node, Number, RawJsonb, MAX_DEPTH};

/// The bytes of a document, owned, which nests at most [`MAX_DEPTH`] deep. [`as_raw`](Self::as_raw)
/// has the calls that read it. It is equal to, ordered, hashed and printed as [`RawJsonb`].
///
/// ```
/// use kohiblad::OwnedJsonb;
/// use std::collections::HashSet;
///
/// let row: OwnedJsonb = r#"{"id": 5}"#.parse()?;
/// let rows = HashSet::from([row]);
/// assert!(rows.contains(&OwnedJsonb::parse(r#"{"id": 5.0}"#, 64)?));
/// # Ok::<(), kohiblad::Error>(())
/// ```
#[derive(Clone)]
pub struct OwnedJsonb {
    bytes: Vec<u8>,
}

impl OwnedJsonb {
    /// Checks bytes, and keeps them.
    ///
    /// # Errors
    ///
    /// - [`Error::InvalidJsonb`]: they are no document, or nest deeper than [`MAX_DEPTH`]. They are
    ///   then dropped; check them by [`RawJsonb::new`] first to keep them.
    pub fn new(bytes: Vec<u8>) -> Result<Self, Error> {
        RawJsonb::new(&bytes)?;
        Ok(Self::of_checked(bytes))
    }

    /// A document of bytes that were checked, or that the library wrote within a depth.
    pub(crate) fn of_checked(bytes: Vec<u8>) -> Self {
        OwnedJsonb { bytes }
    }

    /// The canonical document of a JSON text, with no more of its brackets open at once than the
    /// depth.
    ///
    /// ```
    /// use kohiblad::{Error, OwnedJsonb};
    ///
    /// assert_eq!(OwnedJsonb::parse("[[0]]", 2)?.to_string(), "[[0]]");
    /// assert_eq!(OwnedJsonb::parse("[[0]]", 1), Err(Error::TooDeep));
    /// assert_eq!(OwnedJsonb::parse("[1,]", 1), Err(Error::InvalidJson { offset: 3 }));
    /// assert_eq!(OwnedJsonb::parse("[1e5]", 1), Err(Error::BadNumber { offset: 2 }));
    /// # Ok::<(), kohiblad::Error>(())
    /// ```
    ///
    /// # Errors
    ///
    /// - [`Error::TooDeep`]: more brackets are open at once than the depth or [`MAX_DEPTH`].
    /// - [`Error::InvalidUtf8`]: the text is not UTF-8.
    /// - [`Error::InvalidJson`]: it is not JSON, and the offset says where.
    /// - [`Error::BadNumber`]: it stops being JSON in a number that is unfinished, or has an
    ///   exponent or too many digits, and the offset says where.
    /// - [`Error::InvalidJsonb`]: a limit of the format is passed.
    /// - [`Error::OutOfMemory`]: an allocation failed.
    pub fn parse(text: impl AsRef<[u8]>, depth: usize) -> Result<Self, Error> {
        ffi::parse(text.as_ref(), depth, Exponents::Forbidden).map(Self::of_checked)
    }

    /// The same of a text whose numbers may have an exponent. Such a number means exactly its
    /// value: `1e5` is the whole number 100000, and `25e-1` is 2.5.
    ///
    /// ```
    /// use kohiblad::{Error, OwnedJsonb};
    ///
    /// let row = OwnedJsonb::parse_with_exponents("[1e5, 1.50e1, 25e-1]", 1)?;
    /// assert_eq!(row.to_string(), "[100000,15.0,2.5]");
    /// let refused = OwnedJsonb::parse_with_exponents("1e999", 0);
    /// assert_eq!(refused, Err(Error::BadNumber { offset: 3 }));
    /// # Ok::<(), kohiblad::Error>(())
    /// ```
    ///
    /// # Errors
    ///
    /// Those of [`parse`](Self::parse), but for exponents.
    pub fn parse_with_exponents(text: impl AsRef<[u8]>, depth: usize) -> Result<Self, Error> {
        ffi::parse(text.as_ref(), depth, Exponents::Allowed).map(Self::of_checked)
    }

    /// The document of a value: canonical for a scalar, a copy for an array or object. A text
    /// becomes a string; [`parse`](Self::parse) reads JSON.
    ///
    /// ```
    /// use kohiblad::{ExtensionValue, Node, Number, OwnedJsonb};
    ///
    /// assert_eq!(OwnedJsonb::of(Node::Null)?.to_string(), "null");
    /// assert_eq!(OwnedJsonb::of(-7)?.to_string(), "-7");
    /// assert_eq!(OwnedJsonb::of("a \"text\"")?.to_string(), r#""a \"text\"""#);
    /// let price = Number { digits: 150, scale: 2 };
    /// assert_eq!(OwnedJsonb::of(price)?.to_string(), "1.50");
    /// let date = ExtensionValue::Date(20_000);
    /// assert_eq!(OwnedJsonb::of(date)?.as_raw().as_extension()?, date);
    /// # Ok::<(), kohiblad::Error>(())
    /// ```
    ///
    /// # Errors
    ///
    /// - [`Error::InvalidJsonb`]: a text has 2^28 bytes or more, or binary or opaque data 2^28 - 1
    ///   or more.
    /// - [`Error::InvalidJsonbExtension`]: there is no opaque value of that tag.
    /// - [`Error::OutOfMemory`]: an allocation failed.
    pub fn of<'a>(value: impl Into<Node<'a>>) -> Result<Self, Error> {
        let bytes = match value.into() {
            Node::Null => ffi::of_null(),
            Node::Boolean(value) => ffi::of_boolean(value),
            Node::Number(number) => ffi::of_decimal(number.digits, number.scale),
            Node::String(text) => ffi::of_text(text),
            Node::Extension(value) => ffi::of_extension(&value.fields()),
            Node::Container(document) => return document.to_owned_jsonb(),
        };
        bytes.map(Self::of_checked)
    }

    /// The array of documents, or of values that become documents by `try_into`: of all that
    /// [`of`](Self::of) takes, a `String`, a `u128`, or stored bytes in a `Vec<u8>`.
    ///
    /// Each is copied twice; of documents that are there already
    /// [`build_array`](Self::build_array) copies each once.
    ///
    /// ```
    /// use kohiblad::OwnedJsonb;
    ///
    /// assert_eq!(OwnedJsonb::array_of([3, 1, 2])?.to_string(), "[3,1,2]");
    /// assert_eq!(OwnedJsonb::array_of([Some("a"), None])?.to_string(), r#"["a",null]"#);
    /// let rows = [OwnedJsonb::parse("{}", 1)?, OwnedJsonb::of(5)?];
    /// assert_eq!(OwnedJsonb::array_of(rows)?.to_string(), "[{},5]");
    /// # Ok::<(), kohiblad::Error>(())
    /// ```
    ///
    /// # Errors
    ///
    /// Those of the conversion and of [`build_array`](Self::build_array).
    pub fn array_of<V>(values: impl IntoIterator<Item = V>) -> Result<Self, Error>
    where
        V: TryInto<OwnedJsonb>,
        Error: From<V::Error>,
    {
        let mut rows = ffi::Rows::default();
        for value in values {
            rows.push(&value.try_into()?.bytes)?;
        }
        ffi::build_array(&rows).map(Self::of_checked)
    }

    /// The object of keys and documents, or values that become documents as those of
    /// [`array_of`](Self::array_of) do; keys may come in any order.
    ///
    /// ```
    /// use kohiblad::{Node, OwnedJsonb};
    ///
    /// let town = String::from("Oslo");
    /// let members = [("town", Node::from(&town)), ("id", 7.into()), ("seen", Node::Null)];
    /// let row = OwnedJsonb::object_of(members)?;
    /// assert_eq!(row.to_string(), r#"{"id":7,"seen":null,"town":"Oslo"}"#);
    /// # Ok::<(), kohiblad::Error>(())
    /// ```
    ///
    /// # Errors
    ///
    /// Those of the conversion and of [`build_object`](Self::build_object).
    pub fn object_of<K, V>(members: impl IntoIterator<Item = (K, V)>) -> Result<Self, Error>
    where
        K: AsRef<str>,
        V: TryInto<OwnedJsonb>,
        Error: From<V::Error>,
    {
        let mut rows = ffi::Rows::default();
        for (key, value) in members {
            rows.push(key.as_ref().as_bytes())?;
            rows.push(&value.try_into()?.bytes)?;
        }
        ffi::build_object(&rows).map(Self::of_checked)
    }

    /// The array of documents.
    ///
    /// ```
    /// use kohiblad::OwnedJsonb;
    ///
    /// let items = [OwnedJsonb::of(1)?, OwnedJsonb::of("x")?];
    /// let array = OwnedJsonb::build_array(items.iter().map(OwnedJsonb::as_raw))?;
    /// assert_eq!(array.to_string(), r#"[1,"x"]"#);
    /// # Ok::<(), kohiblad::Error>(())
    /// ```
    ///
    /// # Errors
    ///
    /// - [`Error::InvalidJsonb`]: a limit of the format is passed, or the array nests deeper than
    ///   [`MAX_DEPTH`].
    /// - [`Error::OutOfMemory`]: an allocation failed.
    pub fn build_array<'a>(items: impl IntoIterator<Item = RawJsonb<'a>>) -> Result<Self, Error> {
        let mut rows = ffi::Rows::default();
        for item in items {
            rows.push(item.as_bytes())?;
        }
        ffi::build_array(&rows).map(Self::of_checked)
    }

    /// The object of keys and documents; keys may come in any order.
    ///
    /// ```
    /// use kohiblad::{Error, OwnedJsonb};
    ///
    /// let id = OwnedJsonb::of(7)?;
    /// let object = OwnedJsonb::build_object([("id", id.as_raw()), ("as", id.as_raw())])?;
    /// assert_eq!(object.to_string(), r#"{"as":7,"id":7}"#);
    /// let refused = OwnedJsonb::build_object([("id", id.as_raw()), ("id", id.as_raw())]);
    /// assert_eq!(refused, Err(Error::ObjectDuplicateKey));
    /// # Ok::<(), kohiblad::Error>(())
    /// ```
    ///
    /// # Errors
    ///
    /// - [`Error::ObjectDuplicateKey`]: a key comes twice.
    /// - [`Error::InvalidJsonb`]: a limit of the format is passed, or the object nests deeper than
    ///   [`MAX_DEPTH`].
    /// - [`Error::OutOfMemory`]: an allocation failed.
    pub fn build_object<'a, K: AsRef<str>>(
        members: impl IntoIterator<Item = (K, RawJsonb<'a>)>,
    ) -> Result<Self, Error> {
        let mut rows = ffi::Rows::default();
        for (key, value) in members {
            rows.push(key.as_ref().as_bytes())?;
            rows.push(value.as_bytes())?;
        }
        ffi::build_object(&rows).map(Self::of_checked)
    }

    /// The document, borrowed.
    pub fn as_raw(&self) -> RawJsonb<'_> {
        RawJsonb::of_checked(&self.bytes)
    }

    /// The bytes of the document.
    pub fn as_bytes(&self) -> &[u8] {
        &self.bytes
    }

    /// The bytes of the document, without a copy.
    pub fn into_bytes(self) -> Vec<u8> {
        self.bytes
    }
}

impl AsRef<[u8]> for OwnedJsonb {
    fn as_ref(&self) -> &[u8] {
        &self.bytes
    }
}

/// Parses a text that nests at most [`MAX_DEPTH`] deep.
///
/// # Errors
///
/// Those of [`OwnedJsonb::parse`].
impl FromStr for OwnedJsonb {
    type Err = Error;

    fn from_str(text: &str) -> Result<Self, Error> {
        Self::parse(text, MAX_DEPTH)
    }
}

/// Checks bytes, and keeps them.
///
/// # Errors
///
/// Those of [`OwnedJsonb::new`].
impl TryFrom<Vec<u8>> for OwnedJsonb {
    type Error = Error;

    fn try_from(bytes: Vec<u8>) -> Result<Self, Error> {
        Self::new(bytes)
    }
}

/// The documents of values, as [`OwnedJsonb::of`] makes them.
macro_rules! of_values {
    ($($value:ty)*) => {$(
        /// The document of the value, as [`OwnedJsonb::of`] makes it.
        ///
        /// # Errors
        ///
        /// Those of [`OwnedJsonb::of`].
        impl TryFrom<$value> for OwnedJsonb {
            type Error = Error;

            fn try_from(value: $value) -> Result<Self, Error> {
                Self::of(value)
            }
        }
    )*};
}

of_values!(bool i8 i16 i32 i64 i128 isize u8 u16 u32 u64 usize Number ExtensionValue<'_> Node<'_>);
of_values!(&str &String RawJsonb<'_> &OwnedJsonb);

/// The document of the text as a string, as [`OwnedJsonb::of`] makes it.
///
/// # Errors
///
/// Those of [`OwnedJsonb::of`].
impl TryFrom<String> for OwnedJsonb {
    type Error = Error;

    fn try_from(text: String) -> Result<Self, Error> {
        Self::of(&text)
    }
}

/// # Errors
///
/// - [`Error::PastRange`]: the number is 2^127 or more.
/// - [`Error::OutOfMemory`]: an allocation failed.
impl TryFrom<u128> for OwnedJsonb {
    type Error = Error;

    fn try_from(value: u128) -> Result<Self, Error> {
        Self::of(Number::try_from(value)?)
    }
}

/// The document of the value, or of null.
///
/// # Errors
///
/// Those of the value's conversion, and [`Error::OutOfMemory`]: an allocation failed.
impl<T> TryFrom<Option<T>> for OwnedJsonb
where
    T: TryInto<OwnedJsonb>,
    Error: From<T::Error>,
{
    type Error = Error;

    fn try_from(value: Option<T>) -> Result<Self, Error> {
        match value {
            Some(value) => Ok(value.try_into()?),
            None => Self::of(Node::Null),
        }
    }
}

impl Ord for OwnedJsonb {
    fn cmp(&self, other: &Self) -> Ordering {
        self.as_raw().cmp(&other.as_raw())
    }
}

impl PartialOrd for OwnedJsonb {
    fn partial_cmp(&self, other: &Self) -> Option<Ordering> {
        Some(self.cmp(other))
    }
}

impl PartialEq for OwnedJsonb {
    fn eq(&self, other: &Self) -> bool {
        self.as_raw() == other.as_raw()
    }
}

impl Eq for OwnedJsonb {}

/// Hashes the key.
///
/// # Panics
///
/// If an allocation fails.
impl Hash for OwnedJsonb {
    fn hash<H: Hasher>(&self, state: &mut H) {
        self.as_raw().hash(state);
    }
}

/// The JSON text, as [`RawJsonb`] prints it.
///
/// # Errors
///
/// [`fmt::Error`] if an allocation fails, for which `to_string` and `println!` panic.
impl fmt::Display for OwnedJsonb {
    fn fmt(&self, f: &mut fmt::Formatter<'_>) -> fmt::Result {
        self.as_raw().fmt(f)
    }
}

impl fmt::Debug for OwnedJsonb {
    fn fmt(&self, f: &mut fmt::Formatter<'_>) -> fmt::Result {
        write!(f, "OwnedJsonb({self})")
    }
}
