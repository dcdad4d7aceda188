"""The structures, codes and calls of ``include/fullercoral.h``, for ctypes.

A structure with an ``fc_bytes`` has that one's two fields instead; the layout is the same.
"""

from __future__ import annotations

from ctypes import (
    Structure,
    c_bool,
    c_char_p,
    c_int64,
    c_size_t,
    c_uint32,
    c_uint64,
    c_void_p,
)

MISSING, INT, TEXT = range(3)
TOTALS, EXTREMA = range(2)
EVICT, FETCH, OFFLOAD = range(3)

MAX_COLUMNS = 16
MAX_TEXT = 4096
MAX_PLACES = 1 << 24
MAX_GROUP = 65_536
MAX_EDITS = 1 << 40
MAX_SEGMENTS = 1024
MAX_INT_SIZE = 1 << 20
MAX_TEXT_SIZE = 1 << 24
NUMBER_BYTES = 16  # the local memory of one number


class TableHandle(Structure):
    """An ``fc_table``."""

    _fields_ = [("at", c_void_p)]


class Bytes(Structure):
    """An ``fc_bytes``."""

    _fields_ = [("at", c_void_p), ("len", c_size_t)]


class Cell(Structure):
    """An ``fc_cell``. It keeps the bytes object of its text alive."""

    _fields_ = [
        ("number", c_int64),
        ("text_at", c_char_p),
        ("text_len", c_size_t),
        ("kind", c_uint32),
    ]


class LimitsStruct(Structure):
    """An ``fc_limits``."""

    _fields_ = [
        ("edits", c_uint64),
        ("group", c_uint32),
        ("places", c_uint32),
        ("int_segments", c_uint32),
        ("int_size", c_uint32),
        ("text_segments", c_uint32),
        ("text_size", c_uint32),
    ]


class TestStruct(Structure):
    """An ``fc_test``."""

    __test__ = False  # for test collectors
    _fields_ = [
        ("number", c_int64),
        ("text_at", c_char_p),
        ("text_len", c_size_t),
        ("column", c_uint32),
        ("op", c_uint32),
    ]


class SpecStruct(Structure):
    """An ``fc_spec``."""

    _fields_ = [
        ("tests", c_void_p),
        ("tests_len", c_size_t),
        ("fold", c_uint32),
        ("value", c_uint32),
        ("key", c_uint32),
        ("has_key", c_bool),
    ]


class AggregateStruct(Structure):
    """An ``fc_aggregate``."""

    _fields_ = [
        ("fold", c_uint32),
        ("value", c_uint32),
        ("key", c_uint32),
        ("tests", c_uint32),
        ("has_key", c_bool),
    ]


class ColumnStruct(Structure):
    """An ``fc_column``."""

    _fields_ = [
        ("numbers", c_void_p),
        ("numbers_len", c_size_t),
        ("offsets", c_void_p),
        ("offsets_len", c_size_t),
        ("bytes", c_void_p),
        ("bytes_len", c_size_t),
        ("valid", c_void_p),
        ("valid_len", c_size_t),
        ("kind", c_uint32),
    ]


class LineStruct(Structure):
    """An ``fc_line``."""

    _fields_ = [
        ("key_at", c_void_p),
        ("key_len", c_size_t),
        ("key_number", c_int64),
        ("count", c_uint64),
        ("sum_low", c_uint64),
        ("sum_high", c_int64),
        ("min", c_int64),
        ("max", c_int64),
        ("key_kind", c_uint32),
        ("fold", c_uint32),
    ]


class SumStruct(Structure):
    """An ``fc_sum``."""

    _fields_ = [("count", c_uint64), ("sum_low", c_uint64), ("sum_high", c_int64)]


class Details(Structure):
    """An ``fc_details``."""

    _fields_ = [
        ("code", c_uint32),
        ("pending", c_uint32),
        ("column", c_uint32),
        ("group", c_uint32),
    ]


class JobStruct(Structure):
    """An ``fc_job``."""

    _fields_ = [
        ("kind", c_uint32),
        ("carried", c_bool),
        ("column", c_uint32),
        ("group", c_uint32),
    ]


class ObjectStruct(Structure):
    """An ``fc_object``."""

    _fields_ = [
        ("copy", c_uint64),
        ("version", c_uint64),
        ("pins", c_uint32),
        ("local", c_bool),
        ("dirty", c_bool),
        ("hot", c_bool),
        ("has_copy", c_bool),
    ]


class SpaceStruct(Structure):
    """An ``fc_space``."""

    _fields_ = [
        ("used", c_uint64),
        ("free", c_uint64),
        ("segments", c_uint32),
        ("size", c_uint32),
    ]


_P, _N, _U32, _U64 = c_void_p, c_size_t, c_uint32, c_uint64

# Every call of the header, with the types of its parameters; pointers are untyped.
CALLS: dict[str, tuple[type, ...]] = {
    "fc_open": (_P, _P, _N, _P, _U64),
    "fc_close": (_P,),
    "fc_last_refusal": (_P, _P),
    "fc_insert": (_P, _P, _N, _P),
    "fc_insert_columns": (_P, _P, _N, _N, _P),
    "fc_set": (_P, _U32, _U32, _P),
    "fc_set_column": (_P, _U32, _P, _N, _P, _P),
    "fc_remove": (_P, _U32),
    "fc_watch": (_P, _P, _P),
    "fc_unwatch": (_P, _U32),
    "fc_scan": (_P, _U32, _U32),
    "fc_pending": (_P, _U32, _P, _P),
    "fc_ask": (_P, _U32, _P),
    "fc_recount": (_P, _U32, _P),
    "fc_find": (_P, _P, _P),
    "fc_line_at": (_P, _N, _P),
    "fc_lines": (_P, _N, _P, _N, _P),
    "fc_ask_key": (_P, _U32, _P, _P),
    "fc_plain": (_P, _U32, _P),
    "fc_spec_of": (_P, _U32, _P),
    "fc_row": (_P, _U32, _P, _N),
    "fc_is_alive": (_P, _U32, _P),
    "fc_numbers": (_P, _U32, _U32, _U32, _P, _N, _P, _N, _P, _N),
    "fc_text": (_P, _U32, _U32, _P, _P),
    "fc_texts_size": (_P, _U32, _U32, _U32, _P),
    "fc_texts": (_P, _U32, _U32, _U32, _P, _N, _P, _N, _P, _N, _P, _N),
    "fc_pin": (_P, _U32, _U32),
    "fc_unpin": (_P, _U32, _U32),
    "fc_compact": (_P, _U32, _U32),
    "fc_saw": (_P, _U32, _U32),
    "fc_proposals": (_P, _U32, _P, _N, _P),
    "fc_begin_evict": (_P, _U32, _U32, _P),
    "fc_begin_coldest": (_P, _P),
    "fc_begin_fetch": (_P, _U32, _U32, _P),
    "fc_begin_offload": (_P, _U32, _U32, _P),
    "fc_job_of": (_P, _U64, _P),
    "fc_wanted": (_P, _U64, _N, _P),
    "fc_deliver": (_P, _U64, _U64, _P, _N),
    "fc_carry": (_P, _U64),
    "fc_outgoing": (_P, _U64, _P, _P),
    "fc_commit": (_P, _U64),
    "fc_install": (_P, _U64),
    "fc_merge": (_P, _U64),
    "fc_give_up": (_P, _U64),
    "fc_fault": (_P, _U64),
    "fc_deliver_copy": (_P, _U32, _U32, _P, _N),
    "fc_migrate": (_P, _U64),
    "fc_places": (_P, _P),
    "fc_columns": (_P, _P),
    "fc_kind_of": (_P, _U32, _P),
    "fc_limits_of": (_P, _P),
    "fc_object_of": (_P, _U32, _U32, _P),
    "fc_space_of": (_P, _U32, _P),
    "fc_faults": (_P, _P),
    "fc_jobs": (_P, _P, _P),
}
