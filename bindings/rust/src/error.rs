use core::convert::Infallible;
use core::fmt;

/// Why a call was refused. The variants have the names of the library's statuses.
///
/// Three statuses are no errors here: `None` is [`Option::None`], after `NoRoom` the call is
/// repeated with more room, and `Overlap` cannot come, since Rust keeps what is written apart.
///
/// ```
/// let refused = kohiblad::OwnedJsonb::parse(r#"{"a":1e5}"#, 64).unwrap_err();
/// assert_eq!(refused, kohiblad::Error::BadNumber { offset: 6 });
/// assert_eq!(refused.to_string(), "BadNumber at byte 6");
/// ```
#[derive(Clone, Copy, Debug, PartialEq, Eq, Hash)]
#[non_exhaustive]
pub enum Error {
    /// The bytes are cut.
    InvalidEOF,
    /// The bytes are no document, nest too deep, or a limit of the format is passed.
    InvalidJsonb,
    /// The header is no document's.
    InvalidJsonbHeader,
    /// An entry is no document's.
    InvalidJsonbJEntry,
    /// The payload of a number is none.
    InvalidJsonbNumber,
    /// There is no such extension value.
    InvalidJsonbExtension,
    /// A text is not UTF-8.
    InvalidUtf8,
    /// A key comes twice.
    ObjectDuplicateKey,
    /// The text is not JSON.
    InvalidJson {
        /// How many bytes of the text begin some JSON text.
        offset: usize,
    },
    /// The text stops being JSON in a number: it is unfinished, has too many digits, or has an
    /// exponent that is not taken.
    BadNumber {
        /// How many bytes of the text begin some JSON text.
        offset: usize,
    },
    /// An allocation failed.
    OutOfMemory,
    /// More brackets of the text are open at once than the depth allows, or the document nests
    /// deeper than the stack of the thread carries.
    TooDeep,
    /// The value is of another kind.
    OtherKind,
    /// The text is no path of SQL/JSON.
    InvalidPath {
        /// At which byte it stops being one.
        offset: usize,
    },
    /// The number does not fit the type: it is too large, or has digits after its point.
    PastRange,
    /// The call took more steps than it may.
    TooManySteps,
    /// The bytes do not begin as a file of typed columns.
    BadMagic,
    /// The file of typed columns has another version of the format.
    UnknownVersion,
    /// There are bytes after the end of the file.
    TrailingData,
    /// A length in the file does not fit the number of rows.
    WrongLength,
    /// What is in the file is out of form.
    OutOfForm,
    /// The file did not give its rows back when it was read again.
    NotReadBack,
    /// A path asks for a member that is not there.
    MemberNotFound,
    /// A path asks for the members of what is no object.
    ObjectNotFound,
    /// A path asks for the items of what is no array.
    ArrayNotFound,
    /// A subscript of a path is no index, or out of bounds.
    InvalidSubscript,
    /// A path rounds what is no number.
    NonNumericItem,
    /// An operand in a path is not one number.
    SingletonRequired,
    /// What is after a sign in a path is no number.
    NumberNotFound,
    /// A path takes a remainder by zero.
    DivisionByZero,
    /// A number that a path computes does not fit.
    OutOfRange,
    /// A variable of a path is not given.
    UndefinedVariable,
    /// A path gives no one boolean or null.
    BooleanRequired,
    /// A status that this version of the crate does not know.
    Unknown(u32),
}

impl Error {
    /// The error of a status. Only a status that is no success may be given.
    pub(crate) fn of_status(status: u32) -> Self {
        Self::of_fault(status, 0)
    }

    /// The error of a status, and the offset that a fault in a text has.
    pub(crate) fn of_fault(status: u32, offset: usize) -> Self {
        match status {
            1 => Error::InvalidEOF,
            2 => Error::InvalidJsonb,
            3 => Error::InvalidJsonbHeader,
            4 => Error::InvalidJsonbJEntry,
            5 => Error::InvalidJsonbNumber,
            6 => Error::InvalidJsonbExtension,
            7 => Error::InvalidUtf8,
            8 => Error::ObjectDuplicateKey,
            9 => Error::InvalidJson { offset },
            10 => Error::OutOfMemory,
            13 => Error::TooDeep,
            14 => Error::OtherKind,
            15 => Error::PastRange,
            17 => Error::BadNumber { offset },
            18 => Error::TooManySteps,
            19 => Error::BadMagic,
            20 => Error::UnknownVersion,
            21 => Error::TrailingData,
            22 => Error::WrongLength,
            23 => Error::OutOfForm,
            24 => Error::NotReadBack,
            25 => Error::MemberNotFound,
            26 => Error::ObjectNotFound,
            27 => Error::ArrayNotFound,
            28 => Error::InvalidSubscript,
            29 => Error::NonNumericItem,
            30 => Error::SingletonRequired,
            31 => Error::NumberNotFound,
            32 => Error::DivisionByZero,
            33 => Error::OutOfRange,
            34 => Error::UndefinedVariable,
            35 => Error::BooleanRequired,
            _ => Error::Unknown(status),
        }
    }

    /// The library's name of the status.
    ///
    /// ```
    /// let refused = kohiblad::OwnedJsonb::parse("1 2", 64).unwrap_err();
    /// assert_eq!(refused.name(), "InvalidJson");
    /// ```
    pub fn name(&self) -> &'static str {
        match self {
            Error::InvalidEOF => "InvalidEOF",
            Error::InvalidJsonb => "InvalidJsonb",
            Error::InvalidJsonbHeader => "InvalidJsonbHeader",
            Error::InvalidJsonbJEntry => "InvalidJsonbJEntry",
            Error::InvalidJsonbNumber => "InvalidJsonbNumber",
            Error::InvalidJsonbExtension => "InvalidJsonbExtension",
            Error::InvalidUtf8 => "InvalidUtf8",
            Error::ObjectDuplicateKey => "ObjectDuplicateKey",
            Error::InvalidJson { .. } => "InvalidJson",
            Error::BadNumber { .. } => "BadNumber",
            Error::OutOfMemory => "OutOfMemory",
            Error::TooDeep => "TooDeep",
            Error::OtherKind | Error::InvalidPath { .. } => "OtherKind",
            Error::PastRange => "PastRange",
            Error::TooManySteps => "TooManySteps",
            Error::BadMagic => "BadMagic",
            Error::UnknownVersion => "UnknownVersion",
            Error::TrailingData => "TrailingData",
            Error::WrongLength => "WrongLength",
            Error::OutOfForm => "OutOfForm",
            Error::NotReadBack => "NotReadBack",
            Error::MemberNotFound => "MemberNotFound",
            Error::ObjectNotFound => "ObjectNotFound",
            Error::ArrayNotFound => "ArrayNotFound",
            Error::InvalidSubscript => "InvalidSubscript",
            Error::NonNumericItem => "NonNumericItem",
            Error::SingletonRequired => "SingletonRequired",
            Error::NumberNotFound => "NumberNotFound",
            Error::DivisionByZero => "DivisionByZero",
            Error::OutOfRange => "OutOfRange",
            Error::UndefinedVariable => "UndefinedVariable",
            Error::BooleanRequired => "BooleanRequired",
            Error::Unknown(_) => "Unknown",
        }
    }

    /// What the status means, in a few words that are put after what was tried.
    ///
    /// ```
    /// let refused = kohiblad::OwnedJsonb::parse("[[]]", 1).unwrap_err();
    /// assert_eq!(refused.reason(), "the text nests deeper than the depth");
    /// ```
    pub fn reason(&self) -> &'static str {
        match self {
            Error::InvalidEOF => "the bytes are cut, or rows are outside them",
            Error::InvalidJsonb => "no document within the depth, or past a limit of the format",
            Error::InvalidJsonbHeader => "the header is of no kind",
            Error::InvalidJsonbJEntry => "entries have no such type",
            Error::InvalidJsonbNumber => "the payload is not that of a number",
            Error::InvalidJsonbExtension => "there is no such extension value",
            Error::InvalidUtf8 => "the text is not UTF-8",
            Error::ObjectDuplicateKey => "a key comes twice",
            Error::InvalidJson { .. } => "the text is no JSON",
            Error::BadNumber { .. } => "the text has an unfinished or too large number",
            Error::OutOfMemory => "an allocation failed",
            Error::TooDeep => "the text nests deeper than the depth",
            Error::OtherKind => "it is of another kind than the call takes",
            Error::InvalidPath { .. } => NO_PATH,
            Error::PastRange => "the number is too large, or has too many digits after its point",
            Error::TooManySteps => "the call took more steps than it may",
            Error::BadMagic => "the bytes do not begin as a file of typed columns",
            Error::UnknownVersion => "the file has another version of the format",
            Error::TrailingData => "there are bytes after the end of the file",
            Error::WrongLength => "a length does not fit the number of rows",
            Error::OutOfForm => "what is in the file is out of form",
            Error::NotReadBack => "the file did not give its rows back",
            Error::MemberNotFound => "the path asks for a member that is not there",
            Error::ObjectNotFound => "the path asks for the members of what is no object",
            Error::ArrayNotFound => "the path asks for the items of what is no array",
            Error::InvalidSubscript => "a subscript of the path is no index, or out of bounds",
            Error::NonNumericItem => "the path rounds what is no number",
            Error::SingletonRequired => "an operand of the path is not one number",
            Error::NumberNotFound => "what is after a sign of the path is no number",
            Error::DivisionByZero => "the path takes a remainder by zero",
            Error::OutOfRange => "a number that the path computes does not fit",
            Error::UndefinedVariable => "a variable of the path is not given",
            Error::BooleanRequired => "the path gives no one boolean or null",
            Error::Unknown(_) => "the status is unknown",
        }
    }

    /// Where a text stops being JSON, or a path: how many bytes of it begin some JSON text, or are
    /// before what the path is refused for. `None` of the errors that are of no place in a text.
    ///
    /// ```
    /// let refused = kohiblad::OwnedJsonb::parse("[1,]", 64).unwrap_err();
    /// assert_eq!(refused.offset(), Some(3));
    /// ```
    pub fn offset(&self) -> Option<usize> {
        match *self {
            Error::InvalidJson { offset }
            | Error::BadNumber { offset }
            | Error::InvalidPath { offset } => Some(offset),
            _ => None,
        }
    }
}

/// The error of a conversion that cannot fail, which is never made: so
/// [`OwnedJsonb::array_of`](crate::OwnedJsonb::array_of) takes documents as well as values.
impl From<Infallible> for Error {
    fn from(never: Infallible) -> Self {
        match never {}
    }
}

/// The reason of a text that is no path.
const NO_PATH: &str = "the text is no path of SQL/JSON";

/// The name, or that the text is no path, and the place if there is one.
impl fmt::Display for Error {
    fn fmt(&self, f: &mut fmt::Formatter<'_>) -> fmt::Result {
        f.write_str(match self {
            Error::InvalidPath { .. } => NO_PATH,
            _ => self.name(),
        })?;
        match self.offset() {
            Some(offset) => write!(f, " at byte {offset}"),
            None => Ok(()),
        }
    }
}

#[cfg(feature = "std")]
impl std::error::Error for Error {}

/// An error of a reader of documents: of the kind `OutOfMemory`, or else `InvalidData`.
#[cfg(feature = "std")]
impl From<Error> for std::io::Error {
    fn from(error: Error) -> Self {
        let kind = match error {
            Error::OutOfMemory => std::io::ErrorKind::OutOfMemory,
            _ => std::io::ErrorKind::InvalidData,
        };
        std::io::Error::new(kind, error)
    }
}

#[cfg(test)]
mod tests {
    use super::Error;
    use crate::ffi;

    #[test]
    fn names_are_those_of_the_library() {
        for status in 1..=36 {
            let error = Error::of_status(status);
            if !matches!(error, Error::Unknown(_)) {
                assert_eq!(error.name(), ffi::status_name(status));
            }
        }
        assert_eq!(ffi::status_name(99), Error::of_status(99).name());
    }

    #[test]
    fn only_three_statuses_are_no_errors() {
        let others: Vec<_> = (1..=35)
            .filter(|&status| matches!(Error::of_status(status), Error::Unknown(_)))
            .map(ffi::status_name)
            .collect();
        assert_eq!(others, ["NoRoom", "None", "Overlap"]);
    }
}
