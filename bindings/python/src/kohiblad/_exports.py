"""The exports of libkohiblad, with what they take and return: tools/pages makes this file of
kohiblad.h.
"""
from ctypes import Structure, c_bool, c_int32, c_int64, c_size_t, c_uint32, c_uint64, c_void_p
from typing import Any, Dict, Tuple

# A pointer, and the length of what is there.
_BLOCK = (c_void_p, c_size_t)


class ValueKind(Structure):
    _fields_ = [("status", c_uint32), ("kind", c_uint32), ("count", c_uint64)]


class Place(Structure):
    _fields_ = [("status", c_uint32), ("type", c_uint32), ("offset", c_uint64),
                ("length", c_uint64)]


class Fault(Structure):
    _fields_ = [("status", c_uint32), ("offset", c_uint64)]


class Expected(Structure):
    _fields_ = [("status", c_uint32), ("classes", c_uint32)]


class PathRefusal(Structure):
    _fields_ = [("status", c_uint32), ("reason", c_uint32), ("offset", c_uint64),
                ("expected", c_uint32), ("mark", c_uint32), ("found", c_uint32),
                ("left_out", c_uint32)]


class Cursor(Structure):
    _fields_ = [("index", c_uint64), ("key", c_uint64), ("value", c_uint64)]


class Decimal(Structure):
    _fields_ = [("status", c_uint32), ("scale", c_uint32), ("high", c_int64), ("low", c_uint64)]


class Integer(Structure):
    _fields_ = [("status", c_uint32), ("value", c_int64)]


class Truth(Structure):
    _fields_ = [("status", c_uint32), ("value", c_uint32)]


class ExtensionValue(Structure):
    _fields_ = [("status", c_uint32), ("tag", c_uint32), ("value", c_int64), ("months", c_int32),
                ("days", c_int32), ("seconds", c_int32), ("offset", c_uint64), ("length", c_uint64)]


class Int128(Structure):
    _fields_ = [("low", c_uint64), ("high", c_int64)]


class TimestampTz(Structure):
    _fields_ = [("value", c_int64), ("seconds", c_int32)]


class Interval(Structure):
    _fields_ = [("months", c_int32), ("days", c_int32), ("micros", c_int64)]


class Int64Zone(Structure):
    _fields_ = [("least", c_int64), ("greatest", c_int64), ("has_value", c_uint64)]


class Uint64Zone(Structure):
    _fields_ = [("least", c_uint64), ("greatest", c_uint64), ("has_value", c_uint64)]


class DecimalZone(Structure):
    _fields_ = [("least", Int128), ("greatest", Int128), ("has_value", c_uint64)]


class DateZone(Structure):
    _fields_ = [("least", c_int32), ("greatest", c_int32), ("has_value", c_uint64)]


class TypedFile(Structure):
    _fields_ = [("status", c_uint32), ("rows", c_uint64), ("columns", c_uint64)]


class TypedColumn(Structure):
    _fields_ = [("type", c_uint32), ("scale", c_uint32), ("rows", c_uint64), ("name", c_uint64),
                ("name_length", c_uint64), ("flags", c_uint64), ("flags_length", c_uint64),
                ("numbers", c_uint64), ("numbers_length", c_uint64), ("texts", c_uint64),
                ("texts_length", c_uint64)]


class Taken(Structure):
    _fields_ = [("status", c_uint32), ("unfit", c_uint64), ("first_unfit", c_uint64)]


class SurveyCounts(Structure):
    _fields_ = [("status", c_uint32), ("least_scale", c_uint32), ("greatest_scale", c_uint32),
                ("most_digits", c_uint64), ("longest_text", c_uint64), ("rows", c_uint64),
                ("not_documents", c_uint64), ("absent", c_uint64), ("nulls", c_uint64),
                ("booleans", c_uint64), ("int64s", c_uint64), ("uint64s", c_uint64),
                ("decimal64s", c_uint64), ("decimal128s", c_uint64), ("texts", c_uint64),
                ("binaries", c_uint64), ("dates", c_uint64), ("timestamps", c_uint64),
                ("zoned_timestamps", c_uint64), ("intervals", c_uint64), ("opaques", c_uint64),
                ("arrays", c_uint64), ("objects", c_uint64)]


# By the name without kohiblad_ the type of the result, and then those of the arguments.
PROTOTYPES: Dict[str, Tuple[Any, ...]] = {
    "version": (c_uint32,),
    "status_name": (c_uint32, c_uint32, *_BLOCK, c_void_p),
    "check": (c_bool, *_BLOCK, c_size_t),
    "compare": (c_int32, *_BLOCK, *_BLOCK, c_size_t),
    "kind": (ValueKind, *_BLOCK),
    "get_key": (c_uint32, *_BLOCK, *_BLOCK, *_BLOCK, c_void_p),
    "find_key": (Place, *_BLOCK, *_BLOCK),
    "find_index": (Place, *_BLOCK, c_size_t),
    "find_key_in_prefix": (Place, *_BLOCK, c_size_t, *_BLOCK),
    "find_index_in_prefix": (Place, *_BLOCK, c_size_t, c_size_t),
    "begin": (c_uint32, *_BLOCK, c_void_p),
    "next": (c_uint32, *_BLOCK, c_void_p, c_void_p, c_void_p),
    "copy": (c_uint32, c_uint32, *_BLOCK, *_BLOCK, c_void_p),
    "get_index": (c_uint32, *_BLOCK, c_size_t, *_BLOCK, c_void_p),
    "get_member": (c_uint32, *_BLOCK, c_size_t, *_BLOCK, c_void_p, *_BLOCK, c_void_p),
    "as_decimal": (Decimal, *_BLOCK),
    "as_int64": (Integer, *_BLOCK),
    "as_string": (Place, *_BLOCK),
    "as_boolean": (Truth, *_BLOCK),
    "as_extension": (ExtensionValue, *_BLOCK),
    "of_null": (c_uint32, *_BLOCK, c_void_p),
    "of_boolean": (c_uint32, c_uint32, *_BLOCK, c_void_p),
    "of_string": (c_uint32, *_BLOCK, *_BLOCK, c_void_p),
    "of_int64": (c_uint32, c_int64, *_BLOCK, c_void_p),
    "of_decimal": (c_uint32, c_int64, c_uint64, c_uint32, *_BLOCK, c_void_p),
    "of_extension": (c_uint32, c_uint32, c_int64, c_int32, c_int32, c_int32, *_BLOCK, *_BLOCK,
                     c_void_p),
    "print": (c_uint32, *_BLOCK, c_size_t, *_BLOCK, c_void_p),
    "pretty": (c_uint32, *_BLOCK, c_size_t, *_BLOCK, c_void_p),
    "print_at": (c_uint32, c_uint32, *_BLOCK, c_size_t, *_BLOCK, c_void_p),
    "pretty_at": (c_uint32, c_uint32, *_BLOCK, c_size_t, *_BLOCK, c_void_p),
    "parse": (c_uint32, *_BLOCK, c_size_t, c_uint32, *_BLOCK, c_void_p),
    "text_fault": (Fault, *_BLOCK, c_size_t, c_uint32),
    "text_expected": (Expected, *_BLOCK, c_size_t, c_uint32),
    "build_array": (c_uint32, *_BLOCK, *_BLOCK, c_size_t, *_BLOCK, c_void_p),
    "build_object": (c_uint32, *_BLOCK, *_BLOCK, c_size_t, *_BLOCK, c_void_p),
    "is_canonical": (c_bool, *_BLOCK, c_size_t),
    "canonical": (c_uint32, *_BLOCK, c_size_t, *_BLOCK, c_void_p),
    "key_layout": (c_uint32,),
    "key": (c_uint32, *_BLOCK, c_size_t, *_BLOCK, c_void_p),
    "key_cut": (c_uint32, *_BLOCK, c_size_t, *_BLOCK, c_void_p),
    "member_key": (c_uint32, *_BLOCK, *_BLOCK, c_size_t, *_BLOCK, c_void_p),
    "sort": (c_uint32, *_BLOCK, *_BLOCK, c_size_t, *_BLOCK),
    "survey": (SurveyCounts, *_BLOCK, *_BLOCK, *_BLOCK, c_size_t),
    "take_int64": (Taken, *_BLOCK, *_BLOCK, *_BLOCK, c_size_t, c_uint32, *_BLOCK, *_BLOCK),
    "take_uint64": (Taken, *_BLOCK, *_BLOCK, *_BLOCK, c_size_t, c_uint32, *_BLOCK, *_BLOCK),
    "take_decimal": (Taken, *_BLOCK, *_BLOCK, *_BLOCK, c_size_t, c_uint32, c_uint32, *_BLOCK,
                     *_BLOCK),
    "take_boolean": (Taken, *_BLOCK, *_BLOCK, *_BLOCK, c_size_t, *_BLOCK, *_BLOCK),
    "take_text": (Taken, *_BLOCK, *_BLOCK, *_BLOCK, c_size_t, *_BLOCK, c_void_p, *_BLOCK, *_BLOCK),
    "take_int64_unchecked": (Taken, *_BLOCK, *_BLOCK, *_BLOCK, c_size_t, c_uint32, *_BLOCK,
                             *_BLOCK),
    "take_uint64_unchecked": (Taken, *_BLOCK, *_BLOCK, *_BLOCK, c_size_t, c_uint32, *_BLOCK,
                              *_BLOCK),
    "take_decimal_unchecked": (Taken, *_BLOCK, *_BLOCK, *_BLOCK, c_size_t, c_uint32, c_uint32,
                               *_BLOCK, *_BLOCK),
    "take_boolean_unchecked": (Taken, *_BLOCK, *_BLOCK, *_BLOCK, c_size_t, *_BLOCK, *_BLOCK),
    "take_text_unchecked": (Taken, *_BLOCK, *_BLOCK, *_BLOCK, c_size_t, *_BLOCK, c_void_p, *_BLOCK,
                            *_BLOCK),
    "take_text32": (Taken, *_BLOCK, *_BLOCK, *_BLOCK, c_size_t, *_BLOCK, c_void_p, *_BLOCK,
                    *_BLOCK),
    "take_text32_unchecked": (Taken, *_BLOCK, *_BLOCK, *_BLOCK, c_size_t, *_BLOCK, c_void_p,
                              *_BLOCK, *_BLOCK),
    "take_binary": (Taken, *_BLOCK, *_BLOCK, *_BLOCK, c_size_t, *_BLOCK, c_void_p, *_BLOCK,
                    *_BLOCK),
    "take_binary_unchecked": (Taken, *_BLOCK, *_BLOCK, *_BLOCK, c_size_t, *_BLOCK, c_void_p,
                              *_BLOCK, *_BLOCK),
    "take_date": (Taken, *_BLOCK, *_BLOCK, *_BLOCK, c_size_t, *_BLOCK, *_BLOCK),
    "take_date_unchecked": (Taken, *_BLOCK, *_BLOCK, *_BLOCK, c_size_t, *_BLOCK, *_BLOCK),
    "take_timestamp": (Taken, *_BLOCK, *_BLOCK, *_BLOCK, c_size_t, *_BLOCK, *_BLOCK),
    "take_timestamp_unchecked": (Taken, *_BLOCK, *_BLOCK, *_BLOCK, c_size_t, *_BLOCK, *_BLOCK),
    "take_timestamp_tz": (Taken, *_BLOCK, *_BLOCK, *_BLOCK, c_size_t, *_BLOCK, *_BLOCK),
    "take_timestamp_tz_unchecked": (Taken, *_BLOCK, *_BLOCK, *_BLOCK, c_size_t, *_BLOCK, *_BLOCK),
    "take_interval": (Taken, *_BLOCK, *_BLOCK, *_BLOCK, c_size_t, *_BLOCK, *_BLOCK),
    "take_interval_unchecked": (Taken, *_BLOCK, *_BLOCK, *_BLOCK, c_size_t, *_BLOCK, *_BLOCK),
    "zones_int64": (c_uint32, *_BLOCK, *_BLOCK, c_size_t, *_BLOCK, c_void_p),
    "zones_uint64": (c_uint32, *_BLOCK, *_BLOCK, c_size_t, *_BLOCK, c_void_p),
    "zones_decimal": (c_uint32, *_BLOCK, *_BLOCK, c_size_t, *_BLOCK, c_void_p),
    "zones_date": (c_uint32, *_BLOCK, *_BLOCK, c_size_t, *_BLOCK, c_void_p),
    "build_typed_file": (c_uint32, *_BLOCK, *_BLOCK, *_BLOCK, *_BLOCK, c_size_t, *_BLOCK, c_void_p),
    "check_typed_file": (TypedFile, *_BLOCK, c_size_t),
    "typed_columns": (c_uint32, *_BLOCK, *_BLOCK, c_void_p),
    "typed_row": (c_uint32, *_BLOCK, c_size_t, c_size_t, *_BLOCK, c_void_p),
    "locate": (c_uint32, *_BLOCK, *_BLOCK, *_BLOCK, c_size_t, *_BLOCK),
    "locate_unchecked": (c_uint32, *_BLOCK, *_BLOCK, *_BLOCK, c_size_t, *_BLOCK),
    "take_int64_at": (Taken, *_BLOCK, *_BLOCK, c_size_t, c_uint32, *_BLOCK, *_BLOCK),
    "take_uint64_at": (Taken, *_BLOCK, *_BLOCK, c_size_t, c_uint32, *_BLOCK, *_BLOCK),
    "take_decimal_at": (Taken, *_BLOCK, *_BLOCK, c_size_t, c_uint32, c_uint32, *_BLOCK, *_BLOCK),
    "take_boolean_at": (Taken, *_BLOCK, *_BLOCK, c_size_t, *_BLOCK, *_BLOCK),
    "take_date_at": (Taken, *_BLOCK, *_BLOCK, c_size_t, *_BLOCK, *_BLOCK),
    "take_timestamp_at": (Taken, *_BLOCK, *_BLOCK, c_size_t, *_BLOCK, *_BLOCK),
    "take_timestamp_tz_at": (Taken, *_BLOCK, *_BLOCK, c_size_t, *_BLOCK, *_BLOCK),
    "take_interval_at": (Taken, *_BLOCK, *_BLOCK, c_size_t, *_BLOCK, *_BLOCK),
    "take_text_at": (Taken, *_BLOCK, *_BLOCK, c_size_t, *_BLOCK, c_void_p, *_BLOCK, *_BLOCK),
    "take_text32_at": (Taken, *_BLOCK, *_BLOCK, c_size_t, *_BLOCK, c_void_p, *_BLOCK, *_BLOCK),
    "take_binary_at": (Taken, *_BLOCK, *_BLOCK, c_size_t, *_BLOCK, c_void_p, *_BLOCK, *_BLOCK),
    "contains": (Truth, *_BLOCK, *_BLOCK, c_size_t, c_size_t),
    "exists": (Truth, *_BLOCK, *_BLOCK, c_size_t),
    "exists_any": (Truth, *_BLOCK, *_BLOCK, c_size_t),
    "exists_all": (Truth, *_BLOCK, *_BLOCK, c_size_t),
    "concat": (c_uint32, *_BLOCK, *_BLOCK, c_size_t, *_BLOCK, c_void_p),
    "merge_patch": (c_uint32, *_BLOCK, *_BLOCK, c_size_t, *_BLOCK, c_void_p),
    "strip_nulls": (c_uint32, *_BLOCK, c_size_t, *_BLOCK, c_void_p),
    "pick": (c_uint32, *_BLOCK, *_BLOCK, c_uint32, c_size_t, *_BLOCK, c_void_p),
    "object_keys": (c_uint32, *_BLOCK, c_size_t, *_BLOCK, c_void_p),
    "array_distinct": (c_uint32, *_BLOCK, c_size_t, *_BLOCK, c_void_p),
    "array_intersection": (c_uint32, *_BLOCK, *_BLOCK, c_size_t, *_BLOCK, c_void_p),
    "array_except": (c_uint32, *_BLOCK, *_BLOCK, c_size_t, *_BLOCK, c_void_p),
    "array_overlap": (Truth, *_BLOCK, *_BLOCK, c_size_t),
    "edit": (c_uint32, *_BLOCK, *_BLOCK, c_uint32, *_BLOCK, c_size_t, *_BLOCK, c_void_p),
    "path_of_text": (c_uint32, *_BLOCK, *_BLOCK, c_void_p),
    "path_in": (c_uint32, *_BLOCK, *_BLOCK, c_size_t, *_BLOCK, c_void_p),
    "get_path": (Place, *_BLOCK, *_BLOCK, c_size_t),
    "select": (c_uint32, *_BLOCK, *_BLOCK, c_size_t, *_BLOCK, c_void_p),
    "select_within": (c_uint32, *_BLOCK, *_BLOCK, c_size_t, c_size_t, *_BLOCK, c_void_p),
    "index_keys": (c_uint32, *_BLOCK, c_size_t, *_BLOCK, c_void_p),
    "top_keys": (c_uint32, *_BLOCK, c_size_t, *_BLOCK, c_void_p),
    "path_fault": (PathRefusal, *_BLOCK),
    "path_report": (c_uint32, *_BLOCK, *_BLOCK, c_void_p),
    "path_print": (c_uint32, *_BLOCK, *_BLOCK, c_void_p),
    "path_query": (c_uint32, *_BLOCK, *_BLOCK, *_BLOCK, c_uint32, c_size_t, *_BLOCK, c_void_p),
    "path_exists": (Truth, *_BLOCK, *_BLOCK, *_BLOCK, c_uint32, c_size_t),
    "path_match": (Truth, *_BLOCK, *_BLOCK, *_BLOCK, c_uint32, c_size_t),
}
