"""The library for C by ctypes: its calls with their types."""

import ctypes
import ctypes.util
import os
from pathlib import Path
from typing import List

NAME = "libvulsangi.so"


class Handle(ctypes.Structure):
    """A `vls_set` or a `vls_doc`: full of zeros, it is empty. Its fields aren't read."""

    _fields_ = [("vls_at", ctypes.c_void_p), ("vls_full", ctypes.c_bool)]


class RawSpan(ctypes.Structure):
    """A `vls_span`."""

    _fields_ = [
        ("offset", ctypes.c_size_t),
        ("length", ctypes.c_size_t),
        ("foreground", ctypes.c_uint32),
        ("background", ctypes.c_uint32),
        ("flags", ctypes.c_uint32),
    ]


def _places() -> List[str]:
    """Where the library is looked for: the environment's word, beside this file, where it is built, and the system."""
    here = Path(__file__).resolve().parent
    near = [here / NAME, here.parent.parent / "c" / NAME]
    found = [os.environ.get("VULSANGI_LIBRARY"), *(str(path) for path in near if path.exists())]
    found.append(ctypes.util.find_library("vulsangi"))
    return [path for path in found if path]


def load() -> ctypes.CDLL:
    """The library. `OSError` where there is none."""
    places = _places()
    if not places:
        raise OSError(f"{NAME} is not found: build it in bindings/c, or name it by VULSANGI_LIBRARY")
    library = ctypes.CDLL(places[0])
    handle, size, text = ctypes.POINTER(Handle), ctypes.c_size_t, ctypes.c_char_p
    number, calls = ctypes.c_int32, {
        "vls_set_new": [handle],
        "vls_set_add_grammar": [handle, text, size, text, size],
        "vls_set_add_theme": [handle, text, size, text, size],
        "vls_set_link": [handle],
        "vls_set_page": [handle, text, size, text, size, text, size, ctypes.c_uint32],
        "vls_set_languages": [handle],
        "vls_set_find": [handle, text, size, text, size],
        "vls_doc_new": [handle, handle, text, size, text, size],
        "vls_doc_line": [handle, handle, text, size],
        "vls_doc_reset": [handle, handle],
    }
    for name, types in calls.items():
        call = getattr(library, name)
        call.argtypes, call.restype = types, number
    for name in ("vls_set_output", "vls_set_fault", "vls_doc_fault"):
        call = getattr(library, name)
        call.argtypes, call.restype = [handle, ctypes.POINTER(ctypes.c_char), size], size
    library.vls_doc_spans.argtypes = [handle, ctypes.POINTER(RawSpan), size]
    library.vls_doc_spans.restype = size
    for name in ("vls_set_free", "vls_doc_free"):
        call = getattr(library, name)
        call.argtypes, call.restype = [handle], None
    return library
