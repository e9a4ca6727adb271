"""Stores JSON texts as rows in one buffer, sorts them, looks a key up and prints.

    python3 rows.py libkohiblad.so
"""
import ctypes
import sys

OK, NO_ROOM, NONE, DEPTH, EXPONENTS_ALLOWED = 0, 11, 12, 64, 1
if len(sys.argv) != 2:
    print("usage: python3 rows.py libkohiblad.so", file=sys.stderr)
    sys.exit(2)
library = ctypes.CDLL(sys.argv[1])
library.kohiblad_status_name.argtypes = [ctypes.c_uint32, ctypes.c_char_p, ctypes.c_size_t,
                                         ctypes.POINTER(ctypes.c_size_t)]


def call(name, *given):
    """The status of a call, and its bytes: called again with more room if they did not fit."""
    arguments = []
    for it in given:
        sized = isinstance(it, bytes)
        arguments += [it, ctypes.c_size_t(len(it))] if sized else [ctypes.c_size_t(it)]
    room = 64
    while True:
        out, length = ctypes.create_string_buffer(room), ctypes.c_size_t()
        room_size = ctypes.c_size_t(room)
        status = getattr(library, name)(*arguments, out, room_size, ctypes.byref(length))
        if status != NO_ROOM:
            return status, out.raw[:length.value]
        room = length.value


def bytes_of(name, *given):
    """The bytes of a call that must succeed."""
    status, result = call(name, *given)
    if status != OK:
        out, length = ctypes.create_string_buffer(32), ctypes.c_size_t()
        library.kohiblad_status_name(status, out, 32, ctypes.byref(length))
        sys.exit(f"{name}: {out.raw[:length.value].decode()}")
    return result


texts = ['{"id": 3, "price": 2.50}', '{"id": 1, "price": null}', "[1, 2]",
         '{"id": 2, "price": 2.5}', '"a note"']
rows = [bytes_of("kohiblad_parse", text.encode(), DEPTH, EXPONENTS_ALLOWED) for text in texts]
column, offsets = b"".join(rows), (ctypes.c_size_t * (len(rows) + 1))()
for i in range(len(rows)):
    offsets[i + 1] = offsets[i] + len(rows[i])
order = (ctypes.c_size_t * len(rows))()
status = library.kohiblad_sort(column, ctypes.c_size_t(len(column)),
                               offsets, ctypes.c_size_t(len(offsets)),
                               ctypes.c_size_t(DEPTH),
                               order, ctypes.c_size_t(len(order)))
assert status == OK
for row in (rows[i] for i in order):
    status, price = call("kohiblad_get_key", row, b"price")
    assert status in (OK, NONE)
    costs = ""
    if status == OK:
        costs = "  costs " + bytes_of("kohiblad_print", price, DEPTH).decode()
    print(bytes_of("kohiblad_print", row, DEPTH).decode() + costs)
