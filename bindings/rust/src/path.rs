use core::fmt;

use crate::{ffi, Error, Node, OwnedJsonb};

/// Where a value is in a document: keys of objects and indexes of arrays, from the top on. The path
/// without a step is that of the whole document.
///
/// Steps are added one by one. If memory for one is refused, the call that gets the path returns
/// [`Error::OutOfMemory`].
///
/// ```
/// use kohiblad::{OwnedJsonb, Path};
///
/// let row = OwnedJsonb::parse(r#"{"tags": ["new", {"of": "x"}]}"#, 64)?;
/// let path = Path::new().key("tags").index(-1).key("of");
/// assert_eq!(path.to_string(), r#"["tags",-1,"of"]"#);
/// let row = row.as_raw().set(&path, "y")?;
/// assert_eq!(row.to_string(), r#"{"tags":["new",{"of":"y"}]}"#);
/// # Ok::<(), kohiblad::Error>(())
/// ```
pub struct Path {
    /// The documents of the steps.
    steps: Result<ffi::Rows, Error>,
}

impl Path {
    /// The path of the whole document.
    pub fn new() -> Self {
        Path {
            steps: Ok(ffi::Rows::default()),
        }
    }

    /// The path to the value of a key, which must be in an object.
    pub fn key(self, key: &str) -> Self {
        self.step(key.into())
    }

    /// The path to an item of an array, counted from 0, or from -1 at the end.
    pub fn index(self, index: i64) -> Self {
        self.step(index.into())
    }

    fn step(self, step: Node<'_>) -> Self {
        let steps = self.steps.and_then(|mut steps| {
            steps.push(OwnedJsonb::of(step)?.as_bytes())?;
            Ok(steps)
        });
        Path { steps }
    }

    /// How many steps it has.
    pub(crate) fn len(&self) -> usize {
        self.steps.as_ref().map_or(0, ffi::Rows::len)
    }

    /// The document of the path: an array of texts and whole numbers, as the library takes paths.
    ///
    /// # Errors
    ///
    /// - [`Error::InvalidJsonb`]: a limit of the format is passed.
    /// - [`Error::OutOfMemory`]: an allocation failed.
    pub fn to_document(&self) -> Result<OwnedJsonb, Error> {
        let steps = self.steps.as_ref().map_err(|&error| error)?;
        ffi::build_array(steps).map(OwnedJsonb::of_checked)
    }
}

/// The path of the whole document.
impl Default for Path {
    fn default() -> Self {
        Self::new()
    }
}

/// The JSON text of the path's document.
///
/// # Errors
///
/// [`fmt::Error`] if an allocation fails, for which `to_string` and `println!` panic.
impl fmt::Display for Path {
    fn fmt(&self, f: &mut fmt::Formatter<'_>) -> fmt::Result {
        self.to_document().map_err(|_| fmt::Error)?.fmt(f)
    }
}

impl fmt::Debug for Path {
    fn fmt(&self, f: &mut fmt::Formatter<'_>) -> fmt::Result {
        write!(f, "Path({self})")
    }
}
