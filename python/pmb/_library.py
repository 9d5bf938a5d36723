"""The library itself: its structs and its functions, as include/pmb.h has them."""

import ctypes
import os
import platform
import sys


class Format(ctypes.Structure):
    _fields_ = [
        ("kind", ctypes.c_uint8),
        ("exponent", ctypes.c_int8),
        ("mode", ctypes.c_uint8),
        ("r", ctypes.c_int8),
        ("m", ctypes.c_int16),
        ("b", ctypes.c_int16),
    ]


class Quantity(ctypes.Structure):
    _fields_ = [("numerator", ctypes.c_int64), ("denominator", ctypes.c_int64)]


class Lexer(ctypes.Structure):
    _fields_ = [
        ("used", ctypes.c_uint64),
        ("at", ctypes.c_uint64),
        ("place", ctypes.c_uint8),
        ("first", ctypes.c_uint8),
        ("second", ctypes.c_uint8),
    ]


class Event(ctypes.Structure):
    _fields_ = [("kind", ctypes.c_uint8), ("byte", ctypes.c_uint8)]


class Choice(ctypes.Structure):
    _fields_ = [
        ("digits", ctypes.c_uint8),
        ("start", ctypes.c_uint8),
        ("bad_words", ctypes.c_uint8),
    ]


class Recorder(ctypes.Structure):
    _fields_ = [
        ("rate", ctypes.c_uint64),
        ("source", ctypes.c_uint8),
        ("names_bus", ctypes.c_uint8),
        ("unshifted", ctypes.c_uint8),
    ]


class Held(ctypes.Structure):
    _fields_ = [("held", ctypes.c_void_p)]


class Result(ctypes.Structure):
    _fields_ = [
        ("status", ctypes.c_int32),
        ("fault", ctypes.c_int32),
        ("device", ctypes.c_int32),
        ("command", ctypes.c_int32),
        ("length", ctypes.c_size_t),
        ("packets", ctypes.c_uint64),
        ("refusals", ctypes.c_uint64),
        ("line", ctypes.c_uint32),
        ("column", ctypes.c_uint32),
    ]


def released() -> str:
    """The folder of the released library and program: the package's own, or that of a clone."""
    here = os.path.dirname(os.path.abspath(__file__))
    if os.path.exists(os.path.join(here, "libpmb.so")):
        return here
    release = os.path.join(os.path.dirname(os.path.dirname(here)), "release")
    return os.path.join(release, "aarch64") if platform.machine() == "aarch64" else release


# What an older library lacks.
_LATER = ("pmb_import", "pmb_profile_", "pmb_reader_", "pmb_bus_")


def _load() -> ctypes.CDLL:
    try:
        library = ctypes.CDLL(os.path.join(released(), "libpmb.so"))
    except OSError as error:
        raise ImportError(
            "pmb needs 64-bit Python on Linux and x86-64 or aarch64, and this is {} on {}: {}"
            "".format(sys.platform, platform.machine(), error)
        ) from None
    status, byte, size = ctypes.c_int32, ctypes.c_uint8, ctypes.c_size_t
    format_at, quantity_at = ctypes.POINTER(Format), ctypes.POINTER(Quantity)
    code_at, size_at, text = ctypes.POINTER(ctypes.c_uint16), ctypes.POINTER(size), ctypes.c_char_p
    lexer_at, event_at = ctypes.POINTER(Lexer), ctypes.POINTER(Event)
    room = [ctypes.c_void_p, size, ctypes.POINTER(Result)]
    whole = [text, size, text, size]
    choice = [ctypes.POINTER(Choice), text, size]
    recorder = [ctypes.POINTER(Recorder), text, size]
    handle, result_at = ctypes.POINTER(Held), ctypes.POINTER(Result)
    under = [handle, text, size]
    message = [ctypes.c_uint16, ctypes.c_uint16, ctypes.c_void_p, size, size_at, byte]
    for name, result, arguments in (
        ("pmb_version", ctypes.c_uint32, []),
        ("pmb_pec", byte, [byte, text, size]),
        ("pmb_encode", status, [format_at, Quantity, code_at]),
        ("pmb_decode", status, [format_at, ctypes.c_uint16, quantity_at]),
        ("pmb_quantity_parse", status, [text, size, quantity_at]),
        ("pmb_quantity_text", status, [Quantity, text, size, size_at]),
        ("pmb_command_name", status, [byte, text, size, size_at]),
        ("pmb_bit_name", status, [byte, byte, text, size, size_at]),
        ("pmb_lex", status, [lexer_at, ctypes.c_void_p, size, size_at, event_at]),
        ("pmb_lex_end", status, [lexer_at, event_at]),
        ("pmb_show", size, whole + room),
        ("pmb_check", size, whole + room),
        ("pmb_build", size, whole + room),
        ("pmb_run", size, whole + room),
        ("pmb_json", size, whole + choice + room),
        ("pmb_import", size, recorder + [text, size] + room),
        ("pmb_profile_fault", size, [text, size] + room),
        ("pmb_profile_open", status, [handle, text, size, result_at]),
        ("pmb_profile_share", status, [handle, handle]),
        ("pmb_profile_close", None, [handle]),
        ("pmb_profile_show", size, under + room),
        ("pmb_profile_check", size, under + room),
        ("pmb_profile_build", size, under + room),
        ("pmb_profile_run", size, under + room),
        ("pmb_profile_json", size, under + choice + room),
        ("pmb_reader_open", status, [handle, handle] + choice),
        ("pmb_reader_feed", status, [handle, text, size]),
        ("pmb_reader_end", status, [handle]),
        ("pmb_reader_take", size, [handle] + room),
        ("pmb_reader_close", None, [handle]),
        ("pmb_bus_open", status, [handle, handle]),
        ("pmb_bus_message", status, [handle, *message]),
        ("pmb_bus_request", status, under + [result_at]),
        ("pmb_bus_events", size, [handle] + room),
        ("pmb_bus_close", None, [handle]),
    ):
        # (a library that was put in the place of the package's own may be older)
        if not hasattr(library, name) and name.startswith(_LATER):
            continue
        function = getattr(library, name)
        function.restype = result
        function.argtypes = arguments
    return library


LIBRARY = _load()
