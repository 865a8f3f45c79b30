"""Finds and calls the library."""
import ctypes
import functools
import mmap
import os
import pathlib

from .errors import LibraryError, OutOfMemory
from .flags import LinesStatus

NAME = "libpethuvazh.so"
SIZE = ctypes.c_size_t
TEXT = (ctypes.c_void_p, SIZE, ctypes.POINTER(SIZE))
#: The room that is tried where a larger one isn't to be had, and how many times a text seldom is longer than its input.
LEAST_ROOM, TIMES_INPUT = 4096, 8


def path():
    """Returns the path of the library."""
    here = pathlib.Path(__file__).resolve().parent
    named = os.environ.get("PETHUVAZH_LIB")
    folders = [pathlib.Path(named)] if named else [here, here.parents[1] / "lib"]
    found = next((it / NAME for it in folders if (it / NAME).is_file()), None)
    if found is None:
        tried = ", nor in ".join(map(str, folders))
        raise ImportError(f"{NAME} isn't in {tried}. Name the folder that has it by the variable PETHUVAZH_LIB.")
    return found


@functools.cache
def functions():
    """Returns the functions of the library, which is loaded once."""
    library = ctypes.CDLL(path())
    report_into, answer_into = library.pethuvazh_report_into, library.pethuvazh_answer_into
    report_into.argtypes = (ctypes.c_char_p, SIZE, ctypes.c_uint32, *TEXT)
    answer_into.argtypes = (ctypes.c_char_p, SIZE, *TEXT)
    report_into.restype = answer_into.restype = ctypes.c_uint32
    return report_into, answer_into


def bytes_of(text):
    """Returns the bytes of a str or of any buffer. Bytes aren't copied; of a buffer that may change during the call there is a copy."""
    if isinstance(text, str):
        return text.encode()
    return text if type(text) is bytes else bytes(memoryview(text))


def flags_of(flags):
    """Returns flags as a number, which ctypes would cut to 32 bits."""
    if not isinstance(flags, int):
        raise TypeError(f"flags are an int, and not {type(flags).__name__}")
    if not 0 <= flags < 1 << 32:
        raise ValueError(f"flags are a number of 32 bits, and not {int(flags)}")
    return int(flags)


def called(function, words, room):
    """Calls a function with a buffer of so many bytes, and returns the status, the length, and the text if the buffer has room for it.

    Pages of the buffer that are never written take no memory.
    """
    try:
        buffer = mmap.mmap(-1, room, flags=mmap.MAP_PRIVATE | mmap.MAP_ANONYMOUS)
    except OSError as error:
        raise OutOfMemory from error
    with buffer:
        length, start = SIZE(0), ctypes.c_char.from_buffer(buffer)
        status = function(*words, ctypes.addressof(start), room, length)
        # The buffer can't be closed while something points into it.
        del start
        return status, length.value, buffer[: length.value] if length.value <= room else None


def ask(function, text, *words):
    """Returns the status and the text of a function for an input."""
    text = bytes_of(text)
    words = (text, len(text), *words)
    try:
        status, length, answer = called(function, words, TIMES_INPUT * len(text) + LEAST_ROOM)
    except OutOfMemory:
        # A text may fit into less than the room for it.
        status, length, answer = called(function, words, LEAST_ROOM)
    if answer is None:
        status, length, answer = called(function, words, length)
    if status == LinesStatus.OUT_OF_MEMORY:
        raise OutOfMemory
    if answer is None:
        raise LibraryError(status)
    return status, answer


def ask_report(text, flags):
    """Returns the status and the text of a report."""
    return ask(functions()[0], text, flags_of(flags))


def ask_lines(text):
    """Returns the status and the text of replies to lines."""
    return ask(functions()[1], text)
