"""The library: where it is, its structures, and its calls with their types."""
import ctypes
import os
from pathlib import Path
from typing import Iterator

ID_SIZE = 20

# Numbers of commits outside of master are this and more.
OTHERS = 1 << 56

# Names by which the system may know it.
_NAMES = ("libsegdag.so.0", "libsegdag.so")


class Text(ctypes.Structure):
    _fields_ = [("bytes", ctypes.c_void_p), ("size", ctypes.c_size_t), ("room", ctypes.c_size_t)]


class Ids(ctypes.Structure):
    _fields_ = [("ids", ctypes.c_void_p), ("count", ctypes.c_size_t), ("room", ctypes.c_size_t)]


class RawSizes(ctypes.Structure):
    _fields_ = [("size", ctypes.c_size_t), ("master", ctypes.c_uint64), ("others", ctypes.c_uint64), ("pending", ctypes.c_uint64)]


class RawDistance(ctypes.Structure):
    _fields_ = [("ahead", ctypes.c_uint64), ("behind", ctypes.c_uint64)]


class RawProgress(ctypes.Structure):
    _fields_ = [("stage", ctypes.c_int), ("done", ctypes.c_uint64), ("whole", ctypes.c_uint64)]


# Its second argument, which the library is told and gives back, is left where it is.
ProgressCall = ctypes.CFUNCTYPE(ctypes.c_bool, ctypes.POINTER(RawProgress))


class Options(ctypes.Structure):
    _fields_ = [
        ("size", ctypes.c_size_t),
        ("flags", ctypes.c_uint32),
        ("wait", ctypes.c_uint32),
        ("cache", ctypes.c_uint32),
        ("most_bytes", ctypes.c_uint64),
        ("progress", ProgressCall),
        ("context", ctypes.c_void_p),
    ]


class Failure(ctypes.Structure):
    _fields_ = [
        ("code", ctypes.c_int),
        ("system", ctypes.c_int),
        ("call", ctypes.c_char_p),
        ("has_id", ctypes.c_bool),
        ("id", ctypes.c_ubyte * ID_SIZE),
        ("text", ctypes.c_char * 512),
    ]


CREATE, READ_ONLY, FOLLOW, ANY_FILE = 1, 2, 4, 8


def _places() -> Iterator[str]:
    """Where the library may be: as SEGDAG_LIBRARY says, beside the package, in its installation or checkout, or where the system finds it."""
    if os.environ.get("SEGDAG_LIBRARY"):
        yield os.environ["SEGDAG_LIBRARY"]
        return
    here = Path(__file__).resolve().parent
    above = here.parent.parent
    for folder in (here, here.parent, above, above.parent, above.parent / "out"):
        for name in reversed(_NAMES):
            if (folder / name).exists():
                yield str(folder / name)
    yield from _NAMES


def _opened() -> ctypes.CDLL:
    """The first of these that can be loaded."""
    tried = []
    for place in _places():
        try:
            return ctypes.CDLL(place)
        except OSError as failed:
            tried.append(f"{place}: {failed}")
    raise ImportError(
        "segdag needs its library, libsegdag.so: build it in a checkout of segdag (`make lib-try`, or `make lib` with its proofs), "
        "install it where the system finds it, or set SEGDAG_LIBRARY to its path. Tried: " + "; ".join(tried)
    )


def _load() -> ctypes.CDLL:
    store, session, size, text, pointer = ctypes.c_void_p, ctypes.c_uint, ctypes.c_size_t, ctypes.c_char_p, ctypes.POINTER
    number, sizes, ids, made = pointer(ctypes.c_uint64), pointer(RawSizes), pointer(Ids), pointer(store)
    library = _opened()
    for name, arguments in {
        "store_open": [text, pointer(Options), made],
        "store_follow": [store, made],
        "store_refresh": [store, number],
        "store_line": [store, text, size, pointer(Text)],
        "mirror_add": [store, text],
        "session_sizes": [store, session, sizes],
        "session_flush": [store, session, text, size, sizes],
        "session_strip": [store, session, text, size, sizes],
        "session_clone": [store, session, sizes],
        "session_pull": [store, session, sizes],
        "session_reload": [store, session, number],
        "session_discard": [store, session, number],
        "commit_add": [store, session, text, text, size, number],
        "commit_number": [store, session, text, number],
        "commit_id": [store, session, ctypes.c_uint64, text],
        "commit_is_ancestor": [store, session, text, text, pointer(ctypes.c_bool)],
        "commit_merge_bases": [store, session, text, text, ids],
        "commit_ahead_behind": [store, session, text, size, pointer(RawDistance), pointer(size)],
        "query_count": [store, session, text, size, number],
        "query_open": [store, session, text, size, made],
        "cursor_next": [store, text, size, pointer(size)],
    }.items():
        call = getattr(library, f"segdag_{name}")
        call.argtypes, call.restype = arguments, ctypes.c_int
    for name, argument in {"text_free": pointer(Text), "ids_free": ids, "store_close": store, "cursor_close": store}.items():
        call = getattr(library, f"segdag_{name}")
        call.argtypes, call.restype = [argument], None
    library.segdag_cursor_left.argtypes, library.segdag_cursor_left.restype = [store], ctypes.c_uint64
    library.segdag_last_error.argtypes, library.segdag_last_error.restype = [], pointer(Failure)
    library.segdag_code_name.argtypes, library.segdag_code_name.restype = [ctypes.c_int], ctypes.c_char_p
    library.segdag_version.argtypes, library.segdag_version.restype = [], ctypes.c_char_p
    return library


library = _load()


def version() -> str:
    """The version of the library that is loaded."""
    return library.segdag_version().decode()
