"""How deep documents may nest on the stack that is left to a thread, where ctypes makes the calls.

The extension module has the same as ``depth_left``.
"""
import ctypes
import os
import threading
from ctypes import byref, c_size_t, c_ulong, c_void_p
from typing import Optional, Sized, Tuple

# The greatest depth of any document and text.
DEPTH = 1000
# What calls take beside their levels, as kohiblad.h says, and what Python takes between a look at
# the stack and a call, or for a signal meanwhile: native.h has the same.
_CALL_STACK, _OWN_STACK = 8192, 8192
# As many bytes as no system needs for the attributes of a thread, and for a context.
_ATTRIBUTES_SIZE, _CONTEXT_SIZE = 256, 1 << 13
# On such a stack Python leaves what documents of so many bytes need, which is 174 KB.
_LARGE_STACK, _SHORT = 1 << 20, 512
# Where a context has the stack's pointer.
_POINTER_PLACES = {"x86_64": 160, "aarch64": 432}

_system = ctypes.PyDLL(None)


def _stack_of_thread() -> Optional[Tuple[int, int]]:
    """The lowest address of the thread's stack, and its size. None: the system does not tell."""
    attributes, start, size = ctypes.create_string_buffer(_ATTRIBUTES_SIZE), c_void_p(), c_size_t()
    try:
        _system.pthread_self.restype = c_ulong
        if _system.pthread_getattr_np(c_ulong(_system.pthread_self()), attributes):
            return None
        status = _system.pthread_attr_getstack(attributes, byref(start), byref(size))
        _system.pthread_attr_destroy(attributes)
    except AttributeError:
        return None
    return None if status else (start.value or 0, size.value)


class _Thread(threading.local):
    """Where a thread's stack begins, and where the system writes how far it is used."""

    def __init__(self) -> None:
        place = _POINTER_PLACES.get(os.uname().machine)
        is_known = place is not None and hasattr(_system, "getcontext") \
            and ctypes.sizeof(c_void_p) == 8
        stack = _stack_of_thread() if is_known else None
        self.start = stack and stack[0]
        # On a large stack there is always enough for short documents.
        self.is_large = not stack or stack[1] >= _LARGE_STACK
        self.context = ctypes.create_string_buffer(_CONTEXT_SIZE)
        self.pointer = c_size_t.from_buffer(self.context, place or 0)


_thread = _Thread()


def depth_left(level_stack: int) -> int:
    """How deep documents may nest for calls that take so many bytes of stack for each level, here
    and now: at most DEPTH, also on a stack of which nothing is known or that is not the thread's.
    """
    start = _thread.start
    if start is None:
        return DEPTH
    _system.getcontext(_thread.context)
    left = _thread.pointer.value - start
    if left < 0:
        return DEPTH
    return max(min((left - _CALL_STACK - _OWN_STACK) // level_stack, DEPTH), 0)


def depth_of(level_stack: int, *data: Sized) -> int:
    """As `depth_left`, for calls over some bytes or texts, where that need not be asked if they are
    short, since to ask takes a microsecond."""
    for it in data:
        if len(it) >= _SHORT:
            return depth_left(level_stack)
    return DEPTH if _thread.is_large else depth_left(level_stack)
