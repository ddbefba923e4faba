"""The calls of the headers of the library for C, as ctypes takes them."""
import ctypes
import os
import re

FOLDER = os.path.join(os.path.dirname(os.path.abspath(__file__)), "..", "..", "c")
HANDLE, BYTES, SIZE, BYTE = ctypes.POINTER(ctypes.c_void_p), ctypes.c_char_p, ctypes.c_size_t, ctypes.c_uint8


class Range(ctypes.Structure):
    """`struct mst_range` of mst.h."""
    _fields_ = [("first", ctypes.c_void_p), ("first_len", SIZE), ("last", ctypes.c_void_p), ("last_len", SIZE), ("digest", ctypes.c_void_p)]


class Row(ctypes.Structure):
    """`struct mst_row` of mst.h."""
    _fields_ = [("key", ctypes.c_void_p), ("key_len", SIZE), ("value", ctypes.c_void_p), ("value_len", SIZE)]


# What a value of each type is, and what a pointer to one.
TYPES = {"uint8_t": (BYTE, BYTES), "size_t": (SIZE, ctypes.POINTER(SIZE)), "struct mst_tree": (None, HANDLE), "struct mst_replica": (None, HANDLE),
         "struct mst_range": (None, ctypes.POINTER(Range)), "struct mst_row": (None, ctypes.POINTER(Row))}


def type_of(parameter):
    """The type of a parameter, as `const uint8_t key[16]`."""
    name, star, array = re.fullmatch(r"\s*(?:const )?(struct \w+|\w+) (\*?)\w+(\[16\])?", parameter).groups()
    return TYPES[name][bool(star or array)]


def loaded(path, header):
    """The library at this path, with the types of the calls of a header."""
    library = ctypes.PyDLL(path)
    with open(os.path.join(FOLDER, header), encoding="utf-8") as file:
        calls = re.findall(r"^(int|void) (mst_\w+)\(([^)]*)\);", file.read(), re.MULTILINE)
    for result, name, parameters in calls:
        call = getattr(library, name)
        call.argtypes = [type_of(parameter) for parameter in parameters.split(",")]
        call.restype = ctypes.c_int if result == "int" else None
    return library
