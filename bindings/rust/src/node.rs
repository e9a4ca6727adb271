use alloc::string::String;
use core::fmt;

use crate::raw::known;
use crate::{ffi, Error, OwnedJsonb, RawJsonb};

/// The kind of a value.
#[derive(Clone, Copy, Debug, PartialEq, Eq, Hash)]
pub enum Kind {
    /// Null.
    Null,
    /// A truth value.
    Boolean,
    /// A number.
    Number,
    /// A text.
    String,
    /// An extension value.
    Extension,
    /// An array, and how many items it has.
    Array(usize),
    /// An object, and how many members it has.
    Object(usize),
}

impl Kind {
    pub(crate) fn of(bytes: &[u8]) -> Result<Kind, Error> {
        let (kind, count) = ffi::kind(bytes)?;
        Ok(match kind {
            0 => Kind::Null,
            1 => Kind::Boolean,
            2 => Kind::Number,
            3 => Kind::String,
            4 => Kind::Extension,
            5 => Kind::Array(count),
            6 => Kind::Object(count),
            other => unreachable!("the library has no kind {other}"),
        })
    }
}

/// A whole number or a decimal: its digits and how many of them come after the point. 1.50 is 150
/// with scale 2.
///
/// Numbers are equal if their digits and scales are, so 1.5 and 1.50 are not. Documents of numbers
/// are compared by value, so those of 1.5 and 1.50 are equal.
#[derive(Clone, Copy, Debug, PartialEq, Eq, Hash)]
pub struct Number {
    /// The number without its point.
    pub digits: i128,
    /// How many digits come after the point.
    pub scale: u8,
}

impl Number {
    pub(crate) fn of_document(bytes: &[u8]) -> Result<Self, Error> {
        let (digits, scale) = ffi::number(bytes)?;
        let scale = u8::try_from(scale).expect("a scale has 8 bits");
        Ok(Number { digits, scale })
    }
}

/// The digits, as JSON has them: `1.50` of 150 and the scale 2.
impl fmt::Display for Number {
    fn fmt(&self, f: &mut fmt::Formatter<'_>) -> fmt::Result {
        let scale = usize::from(self.scale);
        let digits = alloc::format!("{:0>1$}", self.digits.unsigned_abs(), scale + 1);
        let (whole, fraction) = digits.split_at(digits.len() - scale);
        let sign = if self.digits < 0 { "-" } else { "" };
        let point = if scale > 0 { "." } else { "" };
        write!(f, "{sign}{whole}{point}{fraction}")
    }
}

/// Whole numbers of the types whose values all fit.
macro_rules! of_integers {
    ($($integer:ty)*) => {$(
        impl From<$integer> for Number {
            fn from(value: $integer) -> Self {
                // `usize` and `isize` have 64 bits, but no `From` in Rust.
                Number { digits: value as i128, scale: 0 }
            }
        }

        impl From<$integer> for Node<'_> {
            fn from(value: $integer) -> Self {
                Node::Number(value.into())
            }
        }
    )*};
}

of_integers!(i8 i16 i32 i64 i128 isize u8 u16 u32 u64 usize);

/// # Errors
///
/// - [`Error::PastRange`]: the number is 2^127 or more.
impl TryFrom<u128> for Number {
    type Error = Error;

    fn try_from(value: u128) -> Result<Self, Error> {
        let digits = i128::try_from(value).map_err(|_| Error::PastRange)?;
        Ok(digits.into())
    }
}

/// # Errors
///
/// - [`Error::PastRange`]: the number is larger, or has digits after its point, also if these are
///   zeros.
impl TryFrom<Number> for i64 {
    type Error = Error;

    fn try_from(number: Number) -> Result<Self, Error> {
        match number.scale {
            0 => i64::try_from(number.digits).map_err(|_| Error::PastRange),
            _ => Err(Error::PastRange),
        }
    }
}

/// An extension value. All its numbers are signed.
#[derive(Clone, Copy, Debug, PartialEq, Eq, Hash)]
pub enum ExtensionValue<'a> {
    /// Binary data.
    Binary(&'a [u8]),
    /// A date.
    Date(i32),
    /// A timestamp.
    Timestamp(i64),
    /// A timestamp with a time zone.
    TimestampTz {
        /// The timestamp.
        value: i64,
        /// The offset of the zone, in seconds.
        offset: i32,
    },
    /// An interval.
    Interval {
        /// The months.
        months: i32,
        /// The days.
        days: i32,
        /// The microseconds.
        micros: i64,
    },
    /// A value of a kind that only newer writers know.
    Opaque {
        /// The kind: 0x50, 0x60 and so on to 0xF0.
        tag: u8,
        /// The data.
        data: &'a [u8],
    },
}

const BINARY: u32 = 0x00;
const DATE: u32 = 0x10;
const TIMESTAMP: u32 = 0x20;
const TIMESTAMP_TZ: u32 = 0x30;
const INTERVAL: u32 = 0x40;

impl<'a> ExtensionValue<'a> {
    /// The value of these fields, whose data are `data`.
    fn of(fields: &ffi::Fields<'_>, data: &'a [u8]) -> Self {
        match fields.tag {
            BINARY => ExtensionValue::Binary(data),
            DATE => ExtensionValue::Date(i32::try_from(fields.value).expect("a date has 32 bits")),
            TIMESTAMP => ExtensionValue::Timestamp(fields.value),
            TIMESTAMP_TZ => ExtensionValue::TimestampTz {
                value: fields.value,
                offset: fields.seconds,
            },
            INTERVAL => ExtensionValue::Interval {
                months: fields.months,
                days: fields.days,
                micros: fields.value,
            },
            tag => ExtensionValue::Opaque {
                tag: u8::try_from(tag).expect("a tag is one byte"),
                data,
            },
        }
    }

    pub(crate) fn of_document(bytes: &'a [u8]) -> Result<Self, Error> {
        let fields = ffi::extension(bytes)?;
        Ok(Self::of(&fields, fields.data))
    }

    pub(crate) fn fields(self) -> ffi::Fields<'a> {
        let fields = ffi::Fields::default();
        match self {
            ExtensionValue::Binary(data) => ffi::Fields {
                tag: BINARY,
                data,
                ..fields
            },
            ExtensionValue::Date(date) => ffi::Fields {
                tag: DATE,
                value: i64::from(date),
                ..fields
            },
            ExtensionValue::Timestamp(value) => ffi::Fields {
                tag: TIMESTAMP,
                value,
                ..fields
            },
            ExtensionValue::TimestampTz { value, offset } => ffi::Fields {
                tag: TIMESTAMP_TZ,
                value,
                seconds: offset,
                ..fields
            },
            ExtensionValue::Interval {
                months,
                days,
                micros,
            } => ffi::Fields {
                tag: INTERVAL,
                value: micros,
                months,
                days,
                ..fields
            },
            ExtensionValue::Opaque { tag, data } => ffi::Fields {
                tag: u32::from(tag),
                data,
                ..fields
            },
        }
    }
}

/// A value in a document, in place: nothing is copied, and an array or object is a document again.
///
/// ```
/// use kohiblad::{Node, OwnedJsonb};
///
/// let row = OwnedJsonb::parse(r#"{"id": 7, "tags": ["new"]}"#, 64)?;
/// let row = row.as_raw();
/// match row.find("id") {
///     Some(Node::Number(id)) => assert_eq!((id.digits, id.scale), (7, 0)),
///     other => panic!("no number: {other:?}"),
/// }
/// match row.find("tags") {
///     Some(Node::Container(tags)) => assert_eq!(tags.to_string(), r#"["new"]"#),
///     other => panic!("no array: {other:?}"),
/// }
/// # Ok::<(), kohiblad::Error>(())
/// ```
#[derive(Clone, Copy, Debug)]
pub enum Node<'a> {
    /// Null.
    Null,
    /// A truth value.
    Boolean(bool),
    /// A number.
    Number(Number),
    /// A text, with neither quotes nor escapes.
    String(&'a str),
    /// An extension value.
    Extension(ExtensionValue<'a>),
    /// An array or an object.
    Container(RawJsonb<'a>),
}

impl<'a> Node<'a> {
    /// The value of a document.
    pub(crate) fn of_document(document: RawJsonb<'a>) -> Self {
        let bytes = document.as_bytes();
        match document.kind() {
            Kind::Null => Node::Null,
            Kind::Boolean => Node::Boolean(known(ffi::boolean(bytes))),
            Kind::Number => Node::Number(known(Number::of_document(bytes))),
            Kind::String => Node::String(text_of(known(ffi::text(bytes)))),
            Kind::Extension => Node::Extension(known(ExtensionValue::of_document(bytes))),
            Kind::Array(_) | Kind::Object(_) => Node::Container(document),
        }
    }

    /// The value of a part of a document.
    pub(crate) fn of_part(part: ffi::Part<'a>) -> Self {
        let payload = part.payload;
        match part.entry_type {
            TYPE_NULL => Node::Null,
            TYPE_FALSE => Node::Boolean(false),
            TYPE_TRUE => Node::Boolean(true),
            TYPE_STRING => Node::String(text_of(payload)),
            TYPE_CONTAINER => Node::Container(RawJsonb::of_checked(payload)),
            TYPE_NUMBER => {
                let scalar = Scalar::of(part);
                Node::Number(known(Number::of_document(scalar.as_bytes())))
            }
            TYPE_EXTENSION => {
                let scalar = Scalar::of(part);
                let fields = known(ffi::extension(scalar.as_bytes()));
                // The tag is the first byte of the payload.
                Node::Extension(ExtensionValue::of(&fields, &payload[1..]))
            }
            other => unreachable!("no entry has the type {other:#x}"),
        }
    }
}

/// A text without quotes and escapes, and an extension value without quotes; of all others the JSON
/// text, which `{:#}` indents.
///
/// ```
/// let row = kohiblad::OwnedJsonb::parse(r#"{"town": "Bergen", "price": 1.50, "of": [1]}"#, 64)?;
/// let shown: Vec<_> = row.as_raw().members().unwrap().map(|(_, value)| value.to_string()).collect();
/// assert_eq!(shown, ["[1]", "1.50", "Bergen"]);
/// # Ok::<(), kohiblad::Error>(())
/// ```
impl fmt::Display for Node<'_> {
    fn fmt(&self, f: &mut fmt::Formatter<'_>) -> fmt::Result {
        match self {
            Node::Null => f.write_str("null"),
            Node::Boolean(value) => write!(f, "{value}"),
            Node::Number(number) => write!(f, "{number}"),
            Node::String(text) => f.write_str(text),
            Node::Extension(value) => {
                let document = OwnedJsonb::of(*value).map_err(|_| fmt::Error)?;
                let text = document.as_raw().compact_text().map_err(|_| fmt::Error)?;
                // It is a JSON string without escapes.
                f.write_str(&text[1..text.len() - 1])
            }
            Node::Container(document) => fmt::Display::fmt(document, f),
        }
    }
}

const TYPE_NULL: u32 = 0x0000_0000;
const TYPE_STRING: u32 = 0x1000_0000;
const TYPE_NUMBER: u32 = 0x2000_0000;
const TYPE_FALSE: u32 = 0x3000_0000;
const TYPE_TRUE: u32 = 0x4000_0000;
pub(crate) const TYPE_CONTAINER: u32 = 0x5000_0000;
const TYPE_EXTENSION: u32 = 0x6000_0000;

/// The text of bytes in a document, which are UTF-8.
pub(crate) fn text_of(bytes: &[u8]) -> &str {
    core::str::from_utf8(bytes).expect("texts in documents are UTF-8")
}

/// The document of a part that is a number or an extension value, without memory. Of a longer
/// payload it has the first bytes: only binary and opaque values are longer, and their beginnings
/// are such values too.
struct Scalar {
    bytes: [u8; Scalar::FRONT + Scalar::LONGEST],
    size: usize,
}

impl Scalar {
    /// The bytes of a document before the payload of its scalar.
    const FRONT: usize = 8;
    /// The longest payload of a number, which is longer than any fields: a decimal in its old form.
    const LONGEST: usize = 19;

    fn of(part: ffi::Part<'_>) -> Self {
        let length = part.payload.len().min(Self::LONGEST);
        let beginning = ffi::Part {
            entry_type: part.entry_type,
            payload: &part.payload[..length],
        };
        let mut bytes = [0; Self::FRONT + Self::LONGEST];
        let size = known(ffi::of_part(beginning, &mut bytes));
        Scalar { bytes, size }
    }

    fn as_bytes(&self) -> &[u8] {
        &self.bytes[..self.size]
    }
}

impl From<bool> for Node<'_> {
    fn from(value: bool) -> Self {
        Node::Boolean(value)
    }
}

/// # Errors
///
/// - [`Error::PastRange`]: the number is 2^127 or more.
impl TryFrom<u128> for Node<'_> {
    type Error = Error;

    fn try_from(value: u128) -> Result<Self, Error> {
        Number::try_from(value).map(Node::Number)
    }
}

impl From<Number> for Node<'_> {
    fn from(value: Number) -> Self {
        Node::Number(value)
    }
}

impl<'a> From<&'a str> for Node<'a> {
    fn from(value: &'a str) -> Self {
        Node::String(value)
    }
}

impl<'a> From<&'a String> for Node<'a> {
    fn from(value: &'a String) -> Self {
        Node::String(value)
    }
}

/// `None` is null.
impl<'a, T: Into<Node<'a>>> From<Option<T>> for Node<'a> {
    fn from(value: Option<T>) -> Self {
        value.map_or(Node::Null, T::into)
    }
}

impl<'a> From<ExtensionValue<'a>> for Node<'a> {
    fn from(value: ExtensionValue<'a>) -> Self {
        Node::Extension(value)
    }
}

impl<'a> From<RawJsonb<'a>> for Node<'a> {
    fn from(value: RawJsonb<'a>) -> Self {
        value.node()
    }
}

impl<'a> From<&'a OwnedJsonb> for Node<'a> {
    fn from(value: &'a OwnedJsonb) -> Self {
        value.as_raw().node()
    }
}
