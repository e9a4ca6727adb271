//! The errors that the core answers.

#[derive(Clone, Copy, Debug, Eq, PartialEq)]
pub enum Error {
    InvalidEOF,
    InvalidJsonb,
    InvalidJsonbExtension,
    InvalidJsonbHeader,
    InvalidJsonbJEntry,
    InvalidJsonbNumber,
    InvalidUtf8,
    ObjectDuplicateKey,
    /// What reading or writing bytes gave; the crate keeps the whole error.
    Io,
}

pub type Result<T> = std::result::Result<T, Error>;

impl From<std::io::Error> for Error {
    fn from(_error: std::io::Error) -> Error {
        Error::Io
    }
}
