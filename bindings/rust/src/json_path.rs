use alloc::string::String;
use alloc::vec::Vec;
use core::fmt;
use core::hash::{Hash, Hasher};
use core::str::FromStr;

use crate::ffi::{self, Asked};
use crate::raw::{known, string_of};
use crate::{Error, Items, Kind, Node, OwnedJsonb, RawJsonb};

/// A path of SQL/JSON, as PostgreSQL reads its `jsonpath`. It was checked once, and is asked of
/// many documents. The library, which keeps nothing, reads the text in each call.
///
/// The text is `$` and then its steps: `.name` or `."any name"` for a key, `[0]` for an item,
/// `[last]` for the last one, `[*]` for all items, `.*` for all members, and `? (@.price < 3)` for
/// a filter. `docs/PATHS.md` has the whole language.
///
/// ```
/// use kohiblad::{JsonPath, OwnedJsonb};
///
/// let dear = JsonPath::parse("$.lines[*] ? (@.price > 4)")?;
/// for text in [r#"{"lines": [{"price": 3}, {"price": 5}]}"#, r#"{"lines": []}"#] {
///     let row = OwnedJsonb::parse(text, 64)?;
///     for line in &dear.query(row.as_raw())? {
///         assert_eq!(line.to_string(), r#"{"price":5}"#);
///     }
/// }
/// # Ok::<(), kohiblad::Error>(())
/// ```
///
/// `{}` prints the one form that all texts of the same path have, by which paths are equal:
///
/// ```
/// # use kohiblad::JsonPath;
/// let path = JsonPath::parse("lax $.lines [*] ? (@.price>4)")?;
/// assert_eq!(path.to_string(), r#"$."lines"[*]?(@."price" > 4)"#);
/// # Ok::<(), kohiblad::Error>(())
/// ```
#[derive(Clone)]
pub struct JsonPath {
    text: String,
    printed: String,
}

impl JsonPath {
    /// The path of a text.
    ///
    /// ```
    /// let refused = kohiblad::JsonPath::parse("$[0:2]").unwrap_err();
    /// assert_eq!(refused.offset(), Some(3));
    /// let words = "expected `]` at byte 3, found `:`; the first two items are `[0 to 1]`";
    /// assert_eq!(refused.to_string(), format!("$[0:2]\n   ^ {words}"));
    /// ```
    ///
    /// # Errors
    ///
    /// - [`Error::InvalidPath`]: the text is no path, and the offset says where.
    /// - [`Error::TooDeep`]: the path may nest deeper than the stack of the thread carries.
    /// - [`Error::OutOfMemory`]: an allocation failed.
    pub fn parse(text: &str) -> Result<Self, PathError> {
        let printed = ffi::path_print(text).map_err(|error| PathError::of(text, error))?;
        Ok(JsonPath {
            text: string_of(ffi::copied(text.as_bytes())?),
            printed: string_of(printed),
        })
    }

    /// The text that it was given as.
    pub fn text(&self) -> &str {
        &self.text
    }

    /// All values that the path gives of a document, in their order.
    ///
    /// ```
    /// use kohiblad::{JsonPath, Node, OwnedJsonb};
    ///
    /// let row = OwnedJsonb::parse(r#"{"lines": [{"price": 3}, {"price": 5}]}"#, 64)?;
    /// let prices = JsonPath::parse("$.lines[*].price")?.query(row.as_raw())?;
    /// assert_eq!(prices.len(), 2);
    /// assert!(matches!(prices.first(), Some(Node::Number(_))));
    /// # Ok::<(), kohiblad::Error>(())
    /// ```
    ///
    /// # Errors
    ///
    /// - [`Error::MemberNotFound`] and the errors after it: the path is given up.
    /// - [`Error::InvalidJsonb`]: the values are past a limit of the format.
    /// - [`Error::TooDeep`]: the path may nest deeper than the stack of the thread carries.
    /// - [`Error::OutOfMemory`]: an allocation failed.
    pub fn query(&self, row: RawJsonb<'_>) -> Result<Values, Error> {
        self.asked().query(row)
    }

    /// The first value that the path gives, as a document of its own; `None` if it gives none.
    ///
    /// # Errors
    ///
    /// Those of [`query`](Self::query).
    pub fn query_first(&self, row: RawJsonb<'_>) -> Result<Option<OwnedJsonb>, Error> {
        self.asked().query_first(row)
    }

    /// Whether the path gives a value of a document. A test always gives one: of that ask
    /// [`matches`](Self::matches).
    ///
    /// ```
    /// use kohiblad::{JsonPath, OwnedJsonb};
    ///
    /// let row = OwnedJsonb::parse(r#"{"lines": [{"price": 3}, {"price": 5}]}"#, 64)?;
    /// assert!(JsonPath::parse("$.lines[*] ? (@.price > 4)")?.exists(row.as_raw())?);
    /// assert!(!JsonPath::parse("$.none")?.exists(row.as_raw())?);
    /// # Ok::<(), kohiblad::Error>(())
    /// ```
    ///
    /// # Errors
    ///
    /// Those of [`query`](Self::query), unless the path is not strict and gives a value before.
    pub fn exists(&self, row: RawJsonb<'_>) -> Result<bool, Error> {
        // Without an answer only a silent call is.
        Ok(self.asked().exists(row)? == Some(true))
    }

    /// What a test says of a document; `None` if it is unknown, as of two kinds that do not compare.
    ///
    /// ```
    /// use kohiblad::{JsonPath, OwnedJsonb};
    ///
    /// let row = OwnedJsonb::parse(r#"{"total": 120, "note": "n/a"}"#, 64)?;
    /// assert_eq!(JsonPath::parse("$.total > 100")?.matches(row.as_raw())?, Some(true));
    /// assert_eq!(JsonPath::parse("$.note > 100")?.matches(row.as_raw())?, None);
    /// # Ok::<(), kohiblad::Error>(())
    /// ```
    ///
    /// # Errors
    ///
    /// Those of [`query`](Self::query), and [`Error::BooleanRequired`] if the path gives another
    /// number of values than one, or another value than a boolean or null.
    pub fn matches(&self, row: RawJsonb<'_>) -> Result<Option<bool>, Error> {
        self.asked().matches(row)
    }

    /// The path with variables: each member of the object is the variable of this name.
    ///
    /// ```
    /// use kohiblad::{JsonPath, OwnedJsonb};
    ///
    /// let row = OwnedJsonb::parse(r#"{"prices": [3, 5, 7]}"#, 64)?;
    /// let path = JsonPath::parse("$.prices[*] ? (@ > $least)")?;
    /// let variables = OwnedJsonb::object_of([("least", 4)])?;
    /// assert_eq!(path.with(variables.as_raw()).query(row.as_raw())?.len(), 2);
    /// # Ok::<(), kohiblad::Error>(())
    /// ```
    pub fn with<'a>(&'a self, variables: RawJsonb<'a>) -> PathQuery<'a> {
        self.asked().with(variables)
    }

    /// The path as one that passes over the errors that give it up, but for
    /// [`Error::UndefinedVariable`]: the values before an error are the answer.
    ///
    /// ```
    /// use kohiblad::{Error, JsonPath, OwnedJsonb};
    ///
    /// let row = OwnedJsonb::parse(r#"[-1, "a"]"#, 64)?;
    /// let path = JsonPath::parse("$[*].abs()")?;
    /// assert_eq!(path.query(row.as_raw()).err(), Some(Error::NonNumericItem));
    /// assert_eq!(path.silent().query(row.as_raw())?.len(), 1);
    /// # Ok::<(), kohiblad::Error>(())
    /// ```
    pub fn silent(&self) -> PathQuery<'_> {
        self.asked().silent()
    }

    fn asked(&self) -> PathQuery<'_> {
        PathQuery(Asked {
            path: &self.text,
            variables: &[],
            is_silent: false,
        })
    }
}

/// Reads the path.
///
/// # Errors
///
/// Those of [`JsonPath::parse`].
impl FromStr for JsonPath {
    type Err = PathError;

    fn from_str(text: &str) -> Result<Self, PathError> {
        Self::parse(text)
    }
}

/// The same.
///
/// # Errors
///
/// Those of [`JsonPath::parse`].
impl TryFrom<&str> for JsonPath {
    type Error = PathError;

    fn try_from(text: &str) -> Result<Self, PathError> {
        Self::parse(text)
    }
}

impl fmt::Display for JsonPath {
    fn fmt(&self, f: &mut fmt::Formatter<'_>) -> fmt::Result {
        f.write_str(&self.printed)
    }
}

impl fmt::Debug for JsonPath {
    fn fmt(&self, f: &mut fmt::Formatter<'_>) -> fmt::Result {
        write!(f, "JsonPath({})", self.printed)
    }
}

impl PartialEq for JsonPath {
    fn eq(&self, other: &Self) -> bool {
        self.printed == other.printed
    }
}

impl Eq for JsonPath {}

impl Hash for JsonPath {
    fn hash<H: Hasher>(&self, state: &mut H) {
        self.printed.hash(state);
    }
}

/// A path with its variables, and whether it is silent. [`JsonPath::with`] and
/// [`JsonPath::silent`] make it.
#[derive(Clone, Copy, Debug)]
pub struct PathQuery<'a>(Asked<'a>);

impl<'a> PathQuery<'a> {
    /// The same with these variables: each member of the object is the variable of this name.
    pub fn with(self, variables: RawJsonb<'a>) -> Self {
        PathQuery(Asked {
            variables: variables.as_bytes(),
            ..self.0
        })
    }

    /// The same, passing over errors as [`JsonPath::silent`] says.
    pub fn silent(self) -> Self {
        PathQuery(Asked {
            is_silent: true,
            ..self.0
        })
    }

    /// All values that the path gives of a document, in their order.
    ///
    /// # Errors
    ///
    /// Those of [`JsonPath::query`], and [`Error::OtherKind`] if the variables are not an object.
    pub fn query(&self, row: RawJsonb<'_>) -> Result<Values, Error> {
        ffi::path_query(row.as_bytes(), &self.0).map(Values)
    }

    /// The first value that the path gives, as a document of its own; `None` if it gives none.
    ///
    /// # Errors
    ///
    /// Those of [`query`](Self::query).
    pub fn query_first(&self, row: RawJsonb<'_>) -> Result<Option<OwnedJsonb>, Error> {
        let values = self.query(row)?;
        values.first().map(OwnedJsonb::of).transpose()
    }

    /// Whether the path gives a value of a document; `None` if an error is passed over.
    ///
    /// # Errors
    ///
    /// Those of [`JsonPath::exists`], and [`Error::OtherKind`] if the variables are not an object.
    pub fn exists(&self, row: RawJsonb<'_>) -> Result<Option<bool>, Error> {
        ffi::path_exists(row.as_bytes(), &self.0)
    }

    /// What a test says of a document; `None` if it is unknown, or an error is passed over.
    ///
    /// # Errors
    ///
    /// Those of [`JsonPath::matches`], and [`Error::OtherKind`] if the variables are not an object.
    pub fn matches(&self, row: RawJsonb<'_>) -> Result<Option<bool>, Error> {
        ffi::path_match(row.as_bytes(), &self.0)
    }
}

/// The values that a path gives of a document, in their order. [`JsonPath::query`] makes it.
///
/// ```
/// use kohiblad::{JsonPath, Node, OwnedJsonb};
///
/// let row = OwnedJsonb::parse(r#"{"tags": ["new", "red"]}"#, 64)?;
/// let tags = JsonPath::parse("$.tags[*]")?.query(row.as_raw())?;
/// let texts: Vec<String> = tags.iter().map(|tag| tag.to_string()).collect();
/// assert_eq!(texts, ["new", "red"]);
/// # Ok::<(), kohiblad::Error>(())
/// ```
#[derive(Clone)]
// The document of their array, which may nest one level deeper than a document of the crate.
pub struct Values(Vec<u8>);

impl Values {
    /// The values, each in place.
    pub fn iter(&self) -> Items<'_> {
        Items::of(RawJsonb::of_checked(&self.0), self.len())
    }

    /// The first value; `None` if there is none.
    pub fn first(&self) -> Option<Node<'_>> {
        self.iter().next()
    }

    /// How many values there are.
    pub fn len(&self) -> usize {
        match known(Kind::of(&self.0)) {
            Kind::Array(count) => count,
            _ => 0,
        }
    }

    /// Whether there is none.
    pub fn is_empty(&self) -> bool {
        self.len() == 0
    }
}

impl<'a> IntoIterator for &'a Values {
    type Item = Node<'a>;
    type IntoIter = Items<'a>;

    fn into_iter(self) -> Items<'a> {
        self.iter()
    }
}

impl fmt::Debug for Values {
    fn fmt(&self, f: &mut fmt::Formatter<'_>) -> fmt::Result {
        f.debug_list().entries(self).finish()
    }
}

/// Why the text of a path is refused.
///
/// `{}` and `{:?}` print the text about the place, a caret under the place, and what is wrong there:
///
/// ```text
/// $.lines[0:2]
///          ^ expected `]` at byte 9, found `:`; the first two items are `[0 to 1]`
/// ```
#[derive(Clone, PartialEq, Eq)]
pub struct PathError {
    error: Error,
    report: String,
}

impl PathError {
    /// Of a text that the library refused.
    fn of(text: &str, error: Error) -> Self {
        match error {
            Error::OtherKind => Self::of_no_path(text).unwrap_or_else(Self::from),
            _ => error.into(),
        }
    }

    /// Of a text that is no path.
    fn of_no_path(text: &str) -> Result<Self, Error> {
        Ok(PathError {
            error: ffi::path_fault(text),
            report: string_of(ffi::path_report(text)?),
        })
    }

    /// What it is: [`Error::InvalidPath`] if the text is no path.
    pub fn error(&self) -> Error {
        self.error
    }

    /// At which byte the text stops being a path. `None` of an error of another kind.
    pub fn offset(&self) -> Option<usize> {
        self.error.offset()
    }
}

/// An error that is of no place in the text.
impl From<Error> for PathError {
    fn from(error: Error) -> Self {
        PathError {
            error,
            report: String::new(),
        }
    }
}

/// What it is, without the words.
impl From<PathError> for Error {
    fn from(refused: PathError) -> Self {
        refused.error
    }
}

impl fmt::Display for PathError {
    fn fmt(&self, f: &mut fmt::Formatter<'_>) -> fmt::Result {
        match self.report.as_str() {
            "" => self.error.fmt(f),
            report => f.write_str(report),
        }
    }
}

impl fmt::Debug for PathError {
    fn fmt(&self, f: &mut fmt::Formatter<'_>) -> fmt::Result {
        write!(f, "PathError(\n{self}\n)")
    }
}

#[cfg(feature = "std")]
impl std::error::Error for PathError {}
