use alloc::string::String;
use alloc::vec::Vec;
use core::cmp::Ordering;
use core::fmt;
use core::hash::{Hash, Hasher};

use crate::node::text_of;
use crate::stack::depth_left;
use crate::{
    ffi, ComparableKey, Error, ExtensionValue, Items, JsonPath, Kind, Members, Node, Number,
    OwnedJsonb, Path, PathError, Values, EDIT_LEVEL_STACK, LEVEL_STACK, MAX_DEPTH,
};

/// The result of a call that can only fail for bytes that are no document.
pub(crate) fn known<T>(result: Result<T, Error>) -> T {
    result.expect("the bytes were checked, and fit the stack")
}

/// A text that the library wrote, which is UTF-8.
pub(crate) fn string_of(text: Vec<u8>) -> String {
    String::from_utf8(text).expect("texts are UTF-8")
}

/// The bytes of a document, borrowed, which nests at most [`MAX_DEPTH`] deep.
///
/// Documents are equal and ordered by their values, of which `5` and `5.0` are one, and equal
/// documents have one hash. From the least to the greatest: extension values, booleans, numbers,
/// strings, objects, arrays, null.
///
/// `{}` prints the JSON text without white space, `{:#}` on lines.
///
/// ```
/// use kohiblad::{OwnedJsonb, RawJsonb};
///
/// let stored = OwnedJsonb::parse(r#"{"b": [1.50, null], "a": "x"}"#, 64)?.into_bytes();
/// let row = RawJsonb::new(&stored)?;
/// assert_eq!(row.to_string(), r#"{"a":"x","b":[1.50,null]}"#);
/// # Ok::<(), kohiblad::Error>(())
/// ```
#[derive(Clone, Copy)]
pub struct RawJsonb<'a> {
    bytes: &'a [u8],
}

impl<'a> RawJsonb<'a> {
    /// Checks bytes.
    ///
    /// # Errors
    ///
    /// - [`Error::InvalidJsonb`]: they are no document, or nest deeper than [`MAX_DEPTH`].
    pub fn new(bytes: &'a [u8]) -> Result<Self, Error> {
        Self::within(bytes, MAX_DEPTH)
    }

    /// Checks bytes, and looks no deeper than the depth.
    ///
    /// ```
    /// use kohiblad::{Error, OwnedJsonb, RawJsonb};
    ///
    /// let nested = OwnedJsonb::parse("[[0]]", 2)?;
    /// assert!(RawJsonb::within(nested.as_bytes(), 2).is_ok());
    /// let refused = RawJsonb::within(nested.as_bytes(), 1).unwrap_err();
    /// assert_eq!(refused, Error::InvalidJsonb);
    /// # Ok::<(), kohiblad::Error>(())
    /// ```
    ///
    /// # Errors
    ///
    /// - [`Error::InvalidJsonb`]: they are no document, or nest deeper than the depth or
    ///   [`MAX_DEPTH`].
    pub fn within(bytes: &'a [u8], depth: usize) -> Result<Self, Error> {
        if ffi::check(bytes, depth) {
            Ok(Self::of_checked(bytes))
        } else {
            Err(Error::InvalidJsonb)
        }
    }

    /// A document of bytes that were checked, or that the library wrote within a depth.
    pub(crate) fn of_checked(bytes: &'a [u8]) -> Self {
        RawJsonb { bytes }
    }

    /// The bytes of the document.
    pub fn as_bytes(&self) -> &'a [u8] {
        self.bytes
    }

    /// A copy of the document.
    ///
    /// # Errors
    ///
    /// - [`Error::OutOfMemory`]: an allocation failed.
    pub fn to_owned_jsonb(&self) -> Result<OwnedJsonb, Error> {
        ffi::copied(self.bytes).map(OwnedJsonb::of_checked)
    }

    /// The kind of the value.
    ///
    /// ```
    /// use kohiblad::{Kind, OwnedJsonb};
    ///
    /// let array = OwnedJsonb::parse("[1, 2, 3]", 64)?;
    /// assert_eq!(array.as_raw().kind(), Kind::Array(3));
    /// # Ok::<(), kohiblad::Error>(())
    /// ```
    pub fn kind(&self) -> Kind {
        known(Kind::of(self.bytes))
    }

    /// The value, in place.
    pub fn node(&self) -> Node<'a> {
        Node::of_document(*self)
    }

    /// The value of a key, in place; `None` if there is no such key or the value is no object.
    pub fn find(&self, name: &str) -> Option<Node<'a>> {
        known(ffi::find(self.bytes, name)).map(Node::of_part)
    }

    /// The value of a key, as a document of its own; `None` if there is no such key or the value is
    /// no object.
    ///
    /// # Errors
    ///
    /// - [`Error::OutOfMemory`]: an allocation failed.
    pub fn get(&self, name: &str) -> Result<Option<OwnedJsonb>, Error> {
        Ok(ffi::get(self.bytes, name)?.map(OwnedJsonb::of_checked))
    }

    /// The value at the end of a path, in place; `None` if the path leads nowhere.
    ///
    /// ```
    /// use kohiblad::{Node, OwnedJsonb, Path};
    ///
    /// let row = OwnedJsonb::parse(r#"{"tags": ["new", {"of": "x"}]}"#, 64)?;
    /// let path = Path::new().key("tags").index(-1).key("of");
    /// assert!(matches!(row.as_raw().get_path(&path)?, Some(Node::String("x"))));
    /// # Ok::<(), kohiblad::Error>(())
    /// ```
    ///
    /// # Errors
    ///
    /// - [`Error::InvalidJsonb`]: a limit of the format is passed by the path.
    /// - [`Error::OutOfMemory`]: an allocation failed.
    pub fn get_path(&self, path: &Path) -> Result<Option<Node<'a>>, Error> {
        let path = path.to_document()?;
        Ok(ffi::get_path(self.bytes, path.as_bytes())?.map(Node::of_part))
    }

    /// All values that the text of a [`JsonPath`] gives, in their order. Make a path by
    /// [`JsonPath::parse`] to ask it of many documents, with variables, or whether it gives a value.
    ///
    /// ```
    /// use kohiblad::{Node, OwnedJsonb};
    ///
    /// let row = OwnedJsonb::parse(r#"{"tags": [{"of": "x"}, {"of": "y"}]}"#, 64)?;
    /// let all = row.as_raw().select("$.tags[*].of")?;
    /// assert_eq!(all.iter().map(|it| it.to_string()).collect::<Vec<_>>(), ["x", "y"]);
    /// let kept = row.as_raw().select(r#"$.tags[*] ? (@.of > "x").of"#)?;
    /// assert!(matches!(kept.first(), Some(Node::String("y"))));
    /// # Ok::<(), kohiblad::Error>(())
    /// ```
    ///
    /// # Errors
    ///
    /// Those of [`JsonPath::parse`] and of [`JsonPath::query`].
    pub fn select(&self, path: &str) -> Result<Values, PathError> {
        Ok(JsonPath::parse(path)?.query(*self)?)
    }

    /// The values that an older path text selects, in place and in the order in which they are
    /// stored, or `None` if it takes more than so many steps: for a path that others chose.
    ///
    /// In such a text `[#-1]` is the last item, each side of an operator has a space, filters
    /// compare a path with a literal, and values of different kinds compare: null is more than all
    /// others. `docs/FUNCTIONS.md` has the language.
    ///
    /// There is a step for each value that a step of the path is asked of, and one for each of its
    /// items or members, or of the bytes of a text, or of binary or opaque data; a list of indexes
    /// takes as many for each of them. A filter takes one for each comparison, `exists`, `&&`,
    /// `||`, `!(`, `(` and `)`, and for a comparison or `exists` also one for each item, member or
    /// byte of each value on the way of its path.
    ///
    /// # Errors
    ///
    /// - [`Error::OtherKind`]: the text is not such a path.
    /// - [`Error::OutOfMemory`]: an allocation failed.
    ///
    /// ```
    /// use kohiblad::OwnedJsonb;
    ///
    /// let row = OwnedJsonb::parse(r#"{"a": 2}"#, 64)?;
    /// assert_eq!(row.as_raw().select_within("$.*?(@ > 1)", 3)?.map(|all| all.len()), Some(1));
    /// assert!(row.as_raw().select_within("$.*?(@ > 1)", 2)?.is_none());
    /// # Ok::<(), kohiblad::Error>(())
    /// ```
    pub fn select_within(&self, path: &str, steps: usize) -> Result<Option<Vec<Node<'a>>>, Error> {
        match ffi::select_within(self.bytes, path, steps, Node::of_part) {
            Err(Error::TooManySteps) => Ok(None),
            answer => answer.map(Some),
        }
    }

    /// The item of an array at an index, from 0, as a document of its own; `None` if there is no
    /// such item or the value is no array. For all items take [`items`](Self::items).
    ///
    /// ```
    /// let array = kohiblad::OwnedJsonb::parse(r#"[true, "x"]"#, 64)?;
    /// let item = array.as_raw().array_item(1)?.expect("there are two items");
    /// assert_eq!(item.as_raw().as_str()?, "x");
    /// # Ok::<(), kohiblad::Error>(())
    /// ```
    ///
    /// # Errors
    ///
    /// - [`Error::OutOfMemory`]: an allocation failed.
    pub fn array_item(&self, index: usize) -> Result<Option<OwnedJsonb>, Error> {
        Ok(ffi::array_item(self.bytes, index)?.map(OwnedJsonb::of_checked))
    }

    /// The key of an object at an index, from 0 in ascending order of the keys, and its value as a
    /// document of its own; `None` if there is no such pair or the value is no object. For all
    /// members take [`members`](Self::members).
    ///
    /// ```
    /// let object = kohiblad::OwnedJsonb::parse(r#"{"b": 2, "a": 1}"#, 64)?;
    /// let (key, value) = object.as_raw().object_member(0)?.expect("there are two members");
    /// assert_eq!((key.as_str(), value.as_raw().as_i64()?), ("a", 1));
    /// # Ok::<(), kohiblad::Error>(())
    /// ```
    ///
    /// # Errors
    ///
    /// - [`Error::OutOfMemory`]: an allocation failed.
    pub fn object_member(&self, index: usize) -> Result<Option<(String, OwnedJsonb)>, Error> {
        let member = ffi::object_member(self.bytes, index)?;
        Ok(member.map(|it| (string_of(it.key), OwnedJsonb::of_checked(it.value))))
    }

    /// The items of an array, in place, in one pass; `None` of all but arrays.
    ///
    /// ```
    /// use kohiblad::{Node, OwnedJsonb};
    ///
    /// let array = OwnedJsonb::parse("[1, 20, 300]", 64)?;
    /// let items = array.as_raw().items().expect("it is an array");
    /// let sum: i128 = items.map(|item| match item {
    ///     Node::Number(number) => number.digits,
    ///     other => panic!("no number: {other:?}"),
    /// }).sum();
    /// assert_eq!(sum, 321);
    /// # Ok::<(), kohiblad::Error>(())
    /// ```
    pub fn items(&self) -> Option<Items<'a>> {
        match self.kind() {
            Kind::Array(count) => Some(Items::of(*self, count)),
            _ => None,
        }
    }

    /// The members of an object, in place, in one pass; `None` of all but objects.
    ///
    /// ```
    /// let object = kohiblad::OwnedJsonb::parse(r#"{"b": 2, "a": 1}"#, 64)?;
    /// let members = object.as_raw().members().expect("it is an object");
    /// assert_eq!(members.map(|(key, _)| key).collect::<Vec<_>>(), ["a", "b"]);
    /// # Ok::<(), kohiblad::Error>(())
    /// ```
    pub fn members(&self) -> Option<Members<'a>> {
        match self.kind() {
            Kind::Object(count) => Some(Members::of(*self, count)),
            _ => None,
        }
    }

    /// A number.
    ///
    /// # Errors
    ///
    /// - [`Error::OtherKind`]: the value is of another kind.
    pub fn as_number(&self) -> Result<Number, Error> {
        Number::of_document(self.bytes)
    }

    /// A number that is whole and of 64 bits.
    ///
    /// # Errors
    ///
    /// - [`Error::PastRange`]: it is larger, or has digits after its point, also if these are
    ///   zeros.
    /// - [`Error::OtherKind`]: the value is of another kind.
    pub fn as_i64(&self) -> Result<i64, Error> {
        ffi::int64(self.bytes)
    }

    /// A text, with neither quotes nor escapes.
    ///
    /// # Errors
    ///
    /// - [`Error::OtherKind`]: the value is of another kind.
    pub fn as_str(&self) -> Result<&'a str, Error> {
        ffi::text(self.bytes).map(text_of)
    }

    /// A truth value.
    ///
    /// # Errors
    ///
    /// - [`Error::OtherKind`]: the value is of another kind.
    pub fn as_bool(&self) -> Result<bool, Error> {
        ffi::boolean(self.bytes)
    }

    /// An extension value.
    ///
    /// # Errors
    ///
    /// - [`Error::OtherKind`]: the value is of another kind.
    pub fn as_extension(&self) -> Result<ExtensionValue<'a>, Error> {
        ExtensionValue::of_document(self.bytes)
    }

    /// The JSON text without white space. `to_string` is the same, but panics if an allocation
    /// fails.
    ///
    /// # Errors
    ///
    /// - [`Error::OutOfMemory`]: an allocation failed.
    pub fn compact_text(&self) -> Result<String, Error> {
        ffi::to_string(self.bytes).map(string_of)
    }

    /// The JSON text of the value of a key, without white space, of which no document is made;
    /// `None` if there is no such key or the value is no object. That of a string has quotes: a
    /// [`Node`] prints it without.
    ///
    /// ```
    /// let row = kohiblad::OwnedJsonb::parse(r#"{"tags": ["a", 1.50]}"#, 64)?;
    /// assert_eq!(row.as_raw().text_of("tags")?.as_deref(), Some(r#"["a",1.50]"#));
    /// assert_eq!(row.as_raw().text_of("name")?, None);
    /// # Ok::<(), kohiblad::Error>(())
    /// ```
    ///
    /// # Errors
    ///
    /// - [`Error::OutOfMemory`]: an allocation failed.
    pub fn text_of(&self, name: &str) -> Result<Option<String>, Error> {
        text_of_part(known(ffi::find(self.bytes, name)))
    }

    /// The same of the value at the end of a path; `None` if the path leads nowhere.
    ///
    /// ```
    /// use kohiblad::{OwnedJsonb, Path};
    ///
    /// let row = OwnedJsonb::parse(r#"{"tags": ["a", 1.50]}"#, 64)?;
    /// let path = Path::new().key("tags").index(-1);
    /// assert_eq!(row.as_raw().text_at(&path)?.as_deref(), Some("1.50"));
    /// # Ok::<(), kohiblad::Error>(())
    /// ```
    ///
    /// # Errors
    ///
    /// - [`Error::InvalidJsonb`]: a limit of the format is passed by the path.
    /// - [`Error::OutOfMemory`]: an allocation failed.
    pub fn text_at(&self, path: &Path) -> Result<Option<String>, Error> {
        let path = path.to_document()?;
        text_of_part(ffi::get_path(self.bytes, path.as_bytes())?)
    }

    /// The JSON text on lines, indented by two spaces.
    ///
    /// ```
    /// let array = kohiblad::OwnedJsonb::parse("[1,[]]", 64)?;
    /// assert_eq!(array.as_raw().pretty_text()?, "[\n  1,\n  []\n]");
    /// # Ok::<(), kohiblad::Error>(())
    /// ```
    ///
    /// # Errors
    ///
    /// - [`Error::OutOfMemory`]: an allocation failed.
    pub fn pretty_text(&self) -> Result<String, Error> {
        ffi::to_pretty(self.bytes).map(string_of)
    }

    /// Whether each value is in the one form that is written today.
    pub fn is_canonical(&self) -> bool {
        known(ffi::is_canonical(self.bytes))
    }

    /// The canonical document of the same value, which is equal to this one.
    ///
    /// # Errors
    ///
    /// - [`Error::InvalidJsonb`]: it is past a limit of the format.
    /// - [`Error::OutOfMemory`]: an allocation failed.
    pub fn to_canonical(&self) -> Result<OwnedJsonb, Error> {
        ffi::to_canonical(self.bytes).map(OwnedJsonb::of_checked)
    }

    /// Whether the document contains another: an object those objects whose keys it has, with
    /// values that contain theirs; an array those arrays for each of whose items it has one that
    /// contains it; a scalar what equals it; and at the top an array also its scalar items.
    ///
    /// This takes as many steps as the product of the numbers if many arrays or objects are in
    /// arrays of both: of documents that others chose ask
    /// [`contains_within`](Self::contains_within). Scalars are sorted, which takes n log n.
    ///
    /// # Errors
    ///
    /// - [`Error::OutOfMemory`]: an allocation failed. None is made unless more than 16 items are
    ///   looked for in an array of more than 16.
    ///
    /// ```
    /// use kohiblad::OwnedJsonb;
    ///
    /// let row = OwnedJsonb::parse(r#"{"city": "Oslo", "tags": ["a", "b"], "price": 1.50}"#, 64)?;
    /// let contains = |text| row.as_raw().contains(OwnedJsonb::parse(text, 64)?.as_raw());
    /// assert!(contains(r#"{"price": 1.5, "tags": ["b"]}"#)?);
    /// assert!(!contains(r#"{"tags": ["c"]}"#)?);
    /// # Ok::<(), kohiblad::Error>(())
    /// ```
    pub fn contains(&self, other: RawJsonb<'_>) -> Result<bool, Error> {
        ffi::contains(self.bytes, other.bytes, usize::MAX)
    }

    /// The same, or `None` if it takes more than so many steps: one for each pair of values that
    /// are compared, each byte of two texts of one length, each member that is passed on the way to
    /// a key, with each byte of its own, and each scalar that is sorted or looked for among those,
    /// with each of its bytes. Enough is the product of what both documents have of values, keys
    /// and bytes in texts, keys and binary values.
    ///
    /// # Errors
    ///
    /// Those of `contains`.
    ///
    /// ```
    /// use kohiblad::OwnedJsonb;
    ///
    /// let row = OwnedJsonb::parse("[1, 2, 3, 4, 5, 6, 7, 8, 9]", 64)?;
    /// let last = OwnedJsonb::parse("[9]", 64)?;
    /// assert_eq!(row.as_raw().contains_within(last.as_raw(), 100)?, Some(true));
    /// assert_eq!(row.as_raw().contains_within(last.as_raw(), 5)?, None);
    /// # Ok::<(), kohiblad::Error>(())
    /// ```
    pub fn contains_within(
        &self,
        other: RawJsonb<'_>,
        steps: usize,
    ) -> Result<Option<bool>, Error> {
        match ffi::contains(self.bytes, other.bytes, steps) {
            Err(Error::TooManySteps) => Ok(None),
            answer => answer.map(Some),
        }
    }

    /// Whether the document is an object with this key, an array with this text among its items, or
    /// this text.
    ///
    /// ```
    /// let row = kohiblad::OwnedJsonb::parse(r#"{"city": "Oslo"}"#, 64)?;
    /// assert!(row.as_raw().exists("city") && !row.as_raw().exists("Oslo"));
    /// # Ok::<(), kohiblad::Error>(())
    /// ```
    pub fn exists(&self, key: &str) -> bool {
        known(ffi::exists(self.bytes, key))
    }

    /// Whether one of several keys [`exists`](Self::exists), in one walk; of no keys none does.
    ///
    /// ```
    /// let row = kohiblad::OwnedJsonb::parse(r#"{"id": 7, "city": "Oslo"}"#, 64)?;
    /// assert!(row.as_raw().exists_any(["size", "city"])?);
    /// assert!(!row.as_raw().exists_any(["size", "Oslo"])?);
    /// # Ok::<(), kohiblad::Error>(())
    /// ```
    ///
    /// # Errors
    ///
    /// - [`Error::InvalidJsonb`]: the keys are past a limit of the format.
    /// - [`Error::OutOfMemory`]: an allocation failed.
    pub fn exists_any<'n>(&self, keys: impl IntoIterator<Item = &'n str>) -> Result<bool, Error> {
        let keys = OwnedJsonb::array_of(keys)?;
        ffi::exists_any(self.bytes, keys.as_bytes())
    }

    /// Whether all of several keys [`exist`](Self::exists), in one walk; of no keys all do.
    ///
    /// ```
    /// let row = kohiblad::OwnedJsonb::parse(r#"{"id": 7, "city": "Oslo"}"#, 64)?;
    /// assert!(row.as_raw().exists_all(["city", "id"])?);
    /// assert!(!row.as_raw().exists_all(["city", "size"])?);
    /// # Ok::<(), kohiblad::Error>(())
    /// ```
    ///
    /// # Errors
    ///
    /// Those of [`exists_any`](Self::exists_any).
    pub fn exists_all<'n>(&self, keys: impl IntoIterator<Item = &'n str>) -> Result<bool, Error> {
        let keys = OwnedJsonb::array_of(keys)?;
        ffi::exists_all(self.bytes, keys.as_bytes())
    }

    /// The document of both put together: of two objects all members, with the value of `other` for
    /// a key of both; of all others an array of the items of both, to which a value that is no
    /// array adds itself.
    ///
    /// ```
    /// use kohiblad::OwnedJsonb;
    ///
    /// let row = OwnedJsonb::parse(r#"{"id": 7, "price": 1.50}"#, 64)?;
    /// let more = OwnedJsonb::object_of([("price", 2), ("seen", 1)])?;
    /// let row = row.as_raw().concat(more.as_raw())?;
    /// assert_eq!(row.to_string(), r#"{"id":7,"price":2,"seen":1}"#);
    /// # Ok::<(), kohiblad::Error>(())
    /// ```
    ///
    /// # Errors
    ///
    /// - [`Error::InvalidJsonb`]: a limit of the format is passed, or the array would nest deeper
    ///   than [`MAX_DEPTH`].
    /// - [`Error::OutOfMemory`]: an allocation failed.
    pub fn concat(&self, other: RawJsonb<'_>) -> Result<OwnedJsonb, Error> {
        let joined = ffi::concat(self.bytes, other.bytes)?;
        match (self.kind(), other.kind()) {
            // No value becomes an item.
            (Kind::Array(_), Kind::Array(_)) | (Kind::Object(_), Kind::Object(_)) => {
                Ok(OwnedJsonb::of_checked(joined))
            }
            _ => OwnedJsonb::new(joined),
        }
    }

    /// The document changed by a JSON Merge Patch (RFC 7396). A patch that is not an object takes
    /// its place. Each member of one that is an object removes the member with its key if it is
    /// null, and else patches the value of that member, or an empty object if there is no such
    /// member; a document that is not an object counts as an empty one.
    ///
    /// ```
    /// use kohiblad::OwnedJsonb;
    ///
    /// let row = OwnedJsonb::parse(r#"{"id": 7, "at": {"town": "Oslo", "zip": "0150"}}"#, 64)?;
    /// let patch = OwnedJsonb::parse(r#"{"id": 8, "at": {"zip": null}}"#, 64)?;
    /// let row = row.as_raw().merge_patch(patch.as_raw())?;
    /// assert_eq!(row.to_string(), r#"{"at":{"town":"Oslo"},"id":8}"#);
    /// # Ok::<(), kohiblad::Error>(())
    /// ```
    ///
    /// # Errors
    ///
    /// - [`Error::InvalidJsonb`]: the result is past a limit of the format.
    /// - [`Error::OutOfMemory`]: an allocation failed.
    pub fn merge_patch(&self, patch: RawJsonb<'_>) -> Result<OwnedJsonb, Error> {
        ffi::merge_patch(self.bytes, patch.bytes).map(OwnedJsonb::of_checked)
    }

    /// The document without the members that are null, in each object in it. Items that are null
    /// stay, and so does a document that is null itself.
    ///
    /// ```
    /// use kohiblad::OwnedJsonb;
    ///
    /// let row = OwnedJsonb::parse(r#"{"id": 7, "seen": null, "all": [null]}"#, 64)?;
    /// let row = row.as_raw().strip_nulls()?;
    /// assert_eq!(row.to_string(), r#"{"all":[null],"id":7}"#);
    /// # Ok::<(), kohiblad::Error>(())
    /// ```
    ///
    /// # Errors
    ///
    /// - [`Error::InvalidJsonb`]: the result is past a limit of the format.
    /// - [`Error::OutOfMemory`]: an allocation failed.
    pub fn strip_nulls(&self) -> Result<OwnedJsonb, Error> {
        ffi::strip_nulls(self.bytes).map(OwnedJsonb::of_checked)
    }

    /// The object with those of its members alone whose keys are named, in any order. What is no
    /// object stays whole.
    ///
    /// ```
    /// use kohiblad::OwnedJsonb;
    ///
    /// let row = OwnedJsonb::parse(r#"{"id": 7, "price": 1.50, "note": "x"}"#, 64)?;
    /// let picked = row.as_raw().pick(["price", "id", "size"])?;
    /// assert_eq!(picked.to_string(), r#"{"id":7,"price":1.50}"#);
    /// # Ok::<(), kohiblad::Error>(())
    /// ```
    ///
    /// # Errors
    ///
    /// - [`Error::InvalidJsonb`]: a limit of the format is passed.
    /// - [`Error::OutOfMemory`]: an allocation failed.
    pub fn pick<'n>(&self, names: impl IntoIterator<Item = &'n str>) -> Result<OwnedJsonb, Error> {
        self.picked(names, ffi::Kept::Named)
    }

    /// The object without the members whose keys are named. What is no object stays whole.
    ///
    /// ```
    /// use kohiblad::OwnedJsonb;
    ///
    /// let row = OwnedJsonb::parse(r#"{"id": 7, "price": 1.50, "note": "x"}"#, 64)?;
    /// assert_eq!(row.as_raw().without(["note", "size"])?.to_string(), r#"{"id":7,"price":1.50}"#);
    /// # Ok::<(), kohiblad::Error>(())
    /// ```
    ///
    /// # Errors
    ///
    /// Those of [`pick`](Self::pick).
    pub fn without<'n>(
        &self,
        names: impl IntoIterator<Item = &'n str>,
    ) -> Result<OwnedJsonb, Error> {
        self.picked(names, ffi::Kept::Others)
    }

    fn picked<'n>(
        &self,
        names: impl IntoIterator<Item = &'n str>,
        kept: ffi::Kept,
    ) -> Result<OwnedJsonb, Error> {
        let names = OwnedJsonb::array_of(names)?;
        ffi::pick(self.bytes, names.as_bytes(), kept).map(OwnedJsonb::of_checked)
    }

    /// The array of an object's keys, in ascending order by their bytes. `None` if the document is
    /// no object. [`members`](Self::members) has them without a copy.
    ///
    /// ```
    /// let row = kohiblad::OwnedJsonb::parse(r#"{"id": 7, "city": "Oslo"}"#, 64)?;
    /// let keys = row.as_raw().object_keys()?.expect("the row is an object");
    /// assert_eq!(keys.to_string(), r#"["city","id"]"#);
    /// # Ok::<(), kohiblad::Error>(())
    /// ```
    ///
    /// # Errors
    ///
    /// - [`Error::OutOfMemory`]: an allocation failed.
    pub fn object_keys(&self) -> Result<Option<OwnedJsonb>, Error> {
        Ok(ffi::object_keys(self.bytes)?.map(OwnedJsonb::of_checked))
    }

    /// The array of the items without those that are equal to one before them. A document that is
    /// no array is the one item, as in the three calls below.
    ///
    /// ```
    /// let row = kohiblad::OwnedJsonb::parse("[1, 2, 1.0, 2, 3]", 64)?;
    /// assert_eq!(row.as_raw().array_distinct()?.to_string(), "[1,2,3]");
    /// # Ok::<(), kohiblad::Error>(())
    /// ```
    ///
    /// # Errors
    ///
    /// - [`Error::InvalidJsonb`]: a limit of the format is passed, or the array would nest deeper
    ///   than [`MAX_DEPTH`].
    /// - [`Error::OutOfMemory`]: an allocation failed.
    pub fn array_distinct(&self) -> Result<OwnedJsonb, Error> {
        self.of_items(ffi::array_distinct(self.bytes)?)
    }

    /// The array of the items that the other has too, in their order. Of equal items there are as
    /// many as both have.
    ///
    /// ```
    /// use kohiblad::OwnedJsonb;
    ///
    /// let left = OwnedJsonb::array_of([1, 2, 2, 3])?;
    /// let right = OwnedJsonb::array_of([2, 3, 2, 2])?;
    /// let both = left.as_raw().array_intersection(right.as_raw())?;
    /// assert_eq!(both.to_string(), "[2,2,3]");
    /// # Ok::<(), kohiblad::Error>(())
    /// ```
    ///
    /// # Errors
    ///
    /// Those of [`array_distinct`](Self::array_distinct).
    pub fn array_intersection(&self, other: RawJsonb<'_>) -> Result<OwnedJsonb, Error> {
        self.of_items(ffi::array_intersection(self.bytes, other.bytes)?)
    }

    /// The array of the items without one for each equal item of the other.
    ///
    /// ```
    /// use kohiblad::OwnedJsonb;
    ///
    /// let left = OwnedJsonb::array_of([1, 2, 2, 3])?;
    /// let right = OwnedJsonb::array_of([2, 4])?;
    /// assert_eq!(left.as_raw().array_except(right.as_raw())?.to_string(), "[1,2,3]");
    /// # Ok::<(), kohiblad::Error>(())
    /// ```
    ///
    /// # Errors
    ///
    /// Those of [`array_distinct`](Self::array_distinct).
    pub fn array_except(&self, other: RawJsonb<'_>) -> Result<OwnedJsonb, Error> {
        self.of_items(ffi::array_except(self.bytes, other.bytes)?)
    }

    /// Whether some item is equal to one of the other's.
    ///
    /// # Errors
    ///
    /// - [`Error::OutOfMemory`]: an allocation failed.
    pub fn array_overlap(&self, other: RawJsonb<'_>) -> Result<bool, Error> {
        ffi::array_overlap(self.bytes, other.bytes)
    }

    /// An array of items of this document, which nests one level deeper if it is no array itself.
    fn of_items(&self, made: Vec<u8>) -> Result<OwnedJsonb, Error> {
        match self.kind() {
            Kind::Array(_) => Ok(OwnedJsonb::of_checked(made)),
            _ => OwnedJsonb::new(made),
        }
    }

    /// The document with a value at a path, in place of what is there, or as a new member or item.
    /// An item past the last comes after it, and one before the first comes before it.
    ///
    /// Nothing changes if a step before the last leads nowhere, or a key is in no object, or an
    /// index in no array.
    ///
    /// ```
    /// use kohiblad::{OwnedJsonb, Path};
    ///
    /// let row = OwnedJsonb::parse(r#"{"price": 1.50, "tags": ["a"]}"#, 64)?;
    /// let row = row.as_raw().set(&Path::new().key("price"), 2)?;
    /// let row = row.as_raw().set(&Path::new().key("tags").index(1), "b")?;
    /// assert_eq!(row.to_string(), r#"{"price":2,"tags":["a","b"]}"#);
    /// let moved = OwnedJsonb::of(5)?.as_raw().set(&Path::new(), row.as_raw())?;
    /// assert_eq!(moved, row);
    /// # Ok::<(), kohiblad::Error>(())
    /// ```
    ///
    /// # Errors
    ///
    /// - [`Error::InvalidJsonb`]: a limit of the format is passed, or the value would nest deeper
    ///   than [`MAX_DEPTH`] at the end of the path, also of one that leads nowhere.
    /// - [`Error::InvalidJsonbExtension`]: there is no opaque value of that tag.
    /// - [`Error::OutOfMemory`]: an allocation failed.
    pub fn set<'v>(&self, path: &Path, value: impl Into<Node<'v>>) -> Result<OwnedJsonb, Error> {
        self.edit(path, ffi::Edit::Put, value.into())
    }

    /// The document with a value inserted at a path: before the item that is there, or after the
    /// last, or as a member with a new key.
    ///
    /// Nothing changes where [`set`](Self::set) changes nothing, or if the key is there.
    ///
    /// ```
    /// use kohiblad::{OwnedJsonb, Path};
    ///
    /// let row = OwnedJsonb::parse("[1, 2]", 64)?;
    /// assert_eq!(row.as_raw().insert(&Path::new().index(0), 0)?.to_string(), "[0,1,2]");
    /// assert_eq!(row.as_raw().insert(&Path::new().index(-1), 0)?.to_string(), "[1,0,2]");
    /// # Ok::<(), kohiblad::Error>(())
    /// ```
    ///
    /// # Errors
    ///
    /// Those of [`set`](Self::set).
    pub fn insert<'v>(&self, path: &Path, value: impl Into<Node<'v>>) -> Result<OwnedJsonb, Error> {
        self.edit(path, ffi::Edit::Insert, value.into())
    }

    /// The document without what is at a path. Nothing changes if nothing is there, or by the path
    /// of the whole document.
    ///
    /// ```
    /// use kohiblad::{OwnedJsonb, Path};
    ///
    /// let row = OwnedJsonb::parse(r#"{"id": 7, "tags": ["a", "b"]}"#, 64)?;
    /// let row = row.as_raw().remove(&Path::new().key("tags").index(-1))?;
    /// assert_eq!(row.to_string(), r#"{"id":7,"tags":["a"]}"#);
    /// # Ok::<(), kohiblad::Error>(())
    /// ```
    ///
    /// # Errors
    ///
    /// - [`Error::InvalidJsonb`]: the result is past a limit of the format.
    /// - [`Error::OutOfMemory`]: an allocation failed.
    pub fn remove(&self, path: &Path) -> Result<OwnedJsonb, Error> {
        let path = path.to_document()?;
        ffi::edit(self.bytes, path.as_bytes(), ffi::Edit::Remove, &[]).map(OwnedJsonb::of_checked)
    }

    fn edit(&self, path: &Path, edit: ffi::Edit, value: Node<'_>) -> Result<OwnedJsonb, Error> {
        let made; // which lives as long as the bytes
        let value = match value {
            Node::Container(document) => document.bytes,
            scalar => {
                made = OwnedJsonb::of(scalar)?;
                made.as_bytes()
            }
        };
        let steps = path.len();
        if steps > MAX_DEPTH {
            return self.to_canonical(); // such a path leads nowhere
        }
        // The result nests no deeper than the document, or than the path and the value. It is
        // bounded before the edit, which takes stack for each level of it.
        let depth = depth_left(EDIT_LEVEL_STACK);
        if steps > depth || !ffi::check(value, depth - steps) {
            return Err(Error::InvalidJsonb);
        }
        let path = path.to_document()?;
        ffi::edit(self.bytes, path.as_bytes(), edit, value).map(OwnedJsonb::of_checked)
    }

    /// The keys by which an inverted index finds the document: one for each scalar, a hash of the
    /// keys of the objects around it and of itself. A document that [`contains`](Self::contains)
    /// another has each of its index keys, so an index over them misses none. Two scalars may have
    /// the same key: ask `contains` of what the index finds.
    ///
    /// ```
    /// use kohiblad::OwnedJsonb;
    ///
    /// let row = OwnedJsonb::parse(r#"{"city": "Oslo", "tags": ["a", "b"]}"#, 64)?;
    /// let wanted = OwnedJsonb::parse(r#"{"tags": ["b"]}"#, 64)?;
    /// let keys = row.as_raw().index_keys()?;
    /// assert_eq!(keys.len(), 3);
    /// assert!(wanted.as_raw().index_keys()?.iter().all(|key| keys.contains(key)));
    /// # Ok::<(), kohiblad::Error>(())
    /// ```
    ///
    /// # Errors
    ///
    /// - [`Error::OutOfMemory`]: an allocation failed.
    pub fn index_keys(&self) -> Result<Vec<u64>, Error> {
        ffi::index_keys(self.bytes)
    }

    /// The key whose order by bytes is that of the documents.
    ///
    /// # Errors
    ///
    /// - [`Error::OutOfMemory`]: an allocation failed.
    pub fn key(&self) -> Result<ComparableKey, Error> {
        let depth = ffi::fitting(LEVEL_STACK, &[self.bytes])?;
        ffi::key(self.bytes, depth).map(ComparableKey)
    }

    /// Writes the first bytes of the [`key`](Self::key) to `out`, as many as there is room, and
    /// returns the length of the whole key. No memory is taken. A cut key is never above its key,
    /// and where two that are cut to one length differ, the keys compare as they do.
    ///
    /// ```
    /// let row = kohiblad::OwnedJsonb::of("Longyearbyen")?;
    /// let mut first = [0; 8];
    /// assert_eq!(row.as_raw().key_cut(&mut first), 14);
    /// assert_eq!(first, row.as_raw().key()?.as_bytes()[..8]);
    /// # Ok::<(), kohiblad::Error>(())
    /// ```
    pub fn key_cut(&self, out: &mut [u8]) -> usize {
        known(ffi::key_cut(self.bytes, out))
    }

    /// The keys of some members in a row, which compare as the lists of the members' values. A
    /// member that is not there has a key of one byte, 0, below all others.
    ///
    /// ```
    /// use kohiblad::OwnedJsonb;
    ///
    /// let key = |text| OwnedJsonb::parse(text, 64)?.as_raw().member_key(["city", "price"]);
    /// let cheap = key(r#"{"city": "Oslo", "price": 9}"#)?;
    /// let dear = key(r#"{"price": 10.0, "city": "Oslo"}"#)?;
    /// assert!(cheap < dear && key("{}")? < cheap);
    /// # Ok::<(), kohiblad::Error>(())
    /// ```
    ///
    /// # Errors
    ///
    /// - [`Error::OutOfMemory`]: an allocation failed.
    pub fn member_key<'n>(
        &self,
        names: impl IntoIterator<Item = &'n str>,
    ) -> Result<ComparableKey, Error> {
        let names = OwnedJsonb::array_of(names)?;
        ffi::member_key(self.bytes, names.as_bytes()).map(ComparableKey)
    }
}

impl AsRef<[u8]> for RawJsonb<'_> {
    fn as_ref(&self) -> &[u8] {
        self.bytes
    }
}

/// Checks bytes.
///
/// # Errors
///
/// Those of [`RawJsonb::new`].
impl<'a> TryFrom<&'a [u8]> for RawJsonb<'a> {
    type Error = Error;

    fn try_from(bytes: &'a [u8]) -> Result<Self, Error> {
        Self::new(bytes)
    }
}

impl Ord for RawJsonb<'_> {
    fn cmp(&self, other: &Self) -> Ordering {
        let depth = known(ffi::fitting(LEVEL_STACK, &[self.bytes, other.bytes]));
        ffi::compare(self.bytes, other.bytes, depth)
    }
}

impl PartialOrd for RawJsonb<'_> {
    fn partial_cmp(&self, other: &Self) -> Option<Ordering> {
        Some(self.cmp(other))
    }
}

impl PartialEq for RawJsonb<'_> {
    fn eq(&self, other: &Self) -> bool {
        self.cmp(other).is_eq()
    }
}

impl Eq for RawJsonb<'_> {}

/// Hashes the key.
///
/// # Panics
///
/// If an allocation fails.
impl Hash for RawJsonb<'_> {
    fn hash<H: Hasher>(&self, state: &mut H) {
        self.key().expect("memory for a key").hash(state);
    }
}

fn text_of_part(part: Option<ffi::Part<'_>>) -> Result<Option<String>, Error> {
    part.map(|part| ffi::text_of_part(part).map(string_of))
        .transpose()
}

/// The JSON text without white space, and by `{:#}` on lines.
///
/// # Errors
///
/// [`fmt::Error`] if an allocation fails, for which `to_string` and `println!` panic.
impl fmt::Display for RawJsonb<'_> {
    fn fmt(&self, f: &mut fmt::Formatter<'_>) -> fmt::Result {
        let text = if f.alternate() {
            self.pretty_text()
        } else {
            self.compact_text()
        };
        f.write_str(&text.map_err(|_| fmt::Error)?)
    }
}

impl fmt::Debug for RawJsonb<'_> {
    fn fmt(&self, f: &mut fmt::Formatter<'_>) -> fmt::Result {
        write!(f, "RawJsonb({self})")
    }
}
