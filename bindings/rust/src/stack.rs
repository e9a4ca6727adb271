//! The stack that is left to a thread, by which it is limited how deep calls look.

use crate::{CALL_STACK, MAX_DEPTH};

/// What the frames of this crate take between a look at the stack and the library's call.
const OWN_FRAMES: usize = 2048;

/// How deep documents may nest for calls that take so many bytes of stack for each level, here and
/// now: what is left of the stack of the thread carries that depth. It is at most [`MAX_DEPTH`].
///
/// Each call that reads a document, parses a text or makes a document looks no deeper than this by
/// [`LEVEL_STACK`](crate::LEVEL_STACK), and those that edit by
/// [`EDIT_LEVEL_STACK`](crate::EDIT_LEVEL_STACK) and
/// [`PATCH_LEVEL_STACK`](crate::PATCH_LEVEL_STACK). So no document ends a thread. Without the
/// feature `std`, and on a stack that is not the thread's own, it is [`MAX_DEPTH`].
///
/// ```
/// use kohiblad::{depth_left, LEVEL_STACK, MAX_DEPTH};
///
/// let thread = std::thread::Builder::new().stack_size(256 << 10);
/// let depth = thread.spawn(|| depth_left(LEVEL_STACK)).unwrap().join().unwrap();
/// assert!(200 < depth && depth < 248);
/// let thread = std::thread::Builder::new().stack_size(2 << 20);
/// let depth = thread.spawn(|| depth_left(LEVEL_STACK)).unwrap().join().unwrap();
/// assert_eq!(depth, MAX_DEPTH);
/// ```
pub fn depth_left(level_stack: usize) -> usize {
    depth_left_beside(0, level_stack)
}

/// The same beside so many bytes of stack that the call takes.
pub(crate) fn depth_left_beside(stack: usize, level_stack: usize) -> usize {
    let left = bytes_left().saturating_sub(CALL_STACK + OWN_FRAMES + stack);
    (left / level_stack.max(1)).min(MAX_DEPTH)
}

/// How many bytes of the thread's stack are left, or `usize::MAX` if that is not known.
#[cfg(feature = "std")]
fn bytes_left() -> usize {
    use crate::ffi;
    use core::cell::Cell;
    use core::ops::Range;

    std::thread_local! {
        // The addresses of the thread's stack, or none before they are asked for.
        static STACK: Cell<Option<(usize, usize)>> = const { Cell::new(None) };
    }
    let here = 0u8;
    let here = &here as *const u8 as usize;
    let (start, end) = STACK.with(|stack| {
        stack.get().unwrap_or_else(|| {
            let Range { start, end } = ffi::stack_of_thread();
            stack.set(Some((start, end)));
            (start, end)
        })
    });
    if (start..end).contains(&here) {
        here - start
    } else {
        usize::MAX
    }
}

#[cfg(not(feature = "std"))]
fn bytes_left() -> usize {
    usize::MAX
}
