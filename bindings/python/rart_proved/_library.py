"""The shared library: `RART_SO` names it, otherwise it is beside this file, or in the folder where it is built."""

import ctypes
import operator
import os
import pathlib

from . import _sys


def _path():
    if "RART_SO" in os.environ:
        return os.environ["RART_SO"]
    here = pathlib.Path(__file__).resolve().parent
    for folder in (here, here.parents[1] / "lib"):
        if (folder / "librart_c.so").is_file():
            return str(folder / "librart_c.so")
    raise ImportError("there is no librart_c.so: run bindings/build, or set RART_SO")


def _load():
    # PyDLL keeps the interpreter's lock during a call: a look-up takes the map out of its handle meanwhile
    library = ctypes.PyDLL(_path())
    for name, result, arguments in _sys.CALLS:
        call = getattr(library, name)
        call.restype, call.argtypes = result, arguments
    return library


LIBRARY = _load()


def check_value(value):
    """Returns a value that the library can hold; raises OverflowError at another integer, TypeError at what is none."""
    value = operator.index(value)
    if not 0 <= value < 1 << 64:
        raise OverflowError("a value is an integer below 2**64")
    return value


def check(status, width=None):
    """Returns a status of success; raises what another one stands for. Keys have at most `width` bytes."""
    if status == _sys.NO_MEMORY:
        raise MemoryError("out of memory")
    if status == _sys.FULL:
        raise OverflowError("the map or the table is full")
    if status == _sys.KEY_TOO_LONG:
        raise ValueError(f"a key has at most {width} bytes")
    if status in (_sys.BAD_LENGTH, _sys.HOST_BITS):
        raise ValueError("not a network")
    return status
