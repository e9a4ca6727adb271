use core::iter::FusedIterator;

use crate::node::text_of;
use crate::raw::known;
use crate::{ffi, Node, RawJsonb};

/// A walk over the children of a document, which reads each entry once.
#[derive(Clone, Debug)]
struct Children<'a> {
    bytes: &'a [u8],
    cursor: ffi::Cursor,
    left: usize,
}

impl<'a> Children<'a> {
    /// The children of an array or object, of which there are `count`.
    fn of(container: RawJsonb<'a>, count: usize) -> Self {
        let bytes = container.as_bytes();
        Children {
            bytes,
            cursor: known(ffi::begin(bytes)).expect("a container has children"),
            left: count,
        }
    }

    fn next(&mut self) -> Option<ffi::Child<'a>> {
        let child = known(ffi::next(self.bytes, &mut self.cursor))?;
        self.left -= 1;
        Some(child)
    }
}

/// The items of an array, in order. [`RawJsonb::items`] makes it.
#[derive(Clone, Debug)]
pub struct Items<'a>(Children<'a>);

impl<'a> Items<'a> {
    pub(crate) fn of(array: RawJsonb<'a>, count: usize) -> Self {
        Items(Children::of(array, count))
    }
}

impl<'a> Iterator for Items<'a> {
    type Item = Node<'a>;

    fn next(&mut self) -> Option<Self::Item> {
        self.0.next().map(|child| Node::of_part(child.value))
    }

    fn size_hint(&self) -> (usize, Option<usize>) {
        (self.0.left, Some(self.0.left))
    }
}

impl ExactSizeIterator for Items<'_> {}
impl FusedIterator for Items<'_> {}

/// The keys of an object and their values, in ascending order of the keys by their bytes.
/// [`RawJsonb::members`] makes it.
#[derive(Clone, Debug)]
pub struct Members<'a>(Children<'a>);

impl<'a> Members<'a> {
    pub(crate) fn of(object: RawJsonb<'a>, count: usize) -> Self {
        Members(Children::of(object, count))
    }
}

impl<'a> Iterator for Members<'a> {
    type Item = (&'a str, Node<'a>);

    fn next(&mut self) -> Option<Self::Item> {
        let child = self.0.next()?;
        let key = child.key.expect("a member has a key");
        Some((text_of(key), Node::of_part(child.value)))
    }

    fn size_hint(&self) -> (usize, Option<usize>) {
        (self.0.left, Some(self.0.left))
    }
}

impl ExactSizeIterator for Members<'_> {}
impl FusedIterator for Members<'_> {}
