use alloc::vec::Vec;

/// A byte string that sorts by its bytes as the document sorts by its value, for stores and indexes
/// that sort bytes. Equal documents, as `5` and `5.0`, have the same key, and no key is the
/// beginning of another.
///
/// ```
/// use kohiblad::OwnedJsonb;
///
/// let key = |text| OwnedJsonb::parse(text, 64)?.as_raw().key();
/// assert_eq!(key("5")?.as_bytes(), key("5.0")?.as_bytes());
/// assert!(key("9")? < key("10")?);
/// # Ok::<(), kohiblad::Error>(())
/// ```
#[derive(Clone, Debug, PartialEq, Eq, PartialOrd, Ord, Hash)]
pub struct ComparableKey(pub(crate) Vec<u8>);

impl ComparableKey {
    /// The bytes of the key.
    pub fn as_bytes(&self) -> &[u8] {
        &self.0
    }

    /// The bytes of the key, without a copy.
    pub fn into_bytes(self) -> Vec<u8> {
        self.0
    }
}

impl AsRef<[u8]> for ComparableKey {
    fn as_ref(&self) -> &[u8] {
        &self.0
    }
}
