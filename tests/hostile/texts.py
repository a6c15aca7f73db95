"""What tests/definitions says of a model's text: the fault that has to come, and its plain lines."""
import functools
import pathlib
import sys

sys.path.insert(0, str(pathlib.Path(__file__).resolve().parent.parent / "definitions"))

from expand import line_of
from grammar import Broken
from indices import GivenUp
from reading import read

UNKNOWN = b"unknown"


@functools.lru_cache(maxsize=64)
def plain_of(text, bits):
    """The plain statements of a text; or the fault that it has, as bytes; or UNKNOWN, where that is too long to find"""
    try:
        return read(text, 2 ** bits - 1)
    except Broken as broken:
        return f"fault: model {broken.rule} line {broken.line}\n".encode()
    except GivenUp:
        return UNKNOWN


def fault_of(text, bits):
    """The fault that has to come of a text; None where it is read, and UNKNOWN where that is too long to find"""
    found = plain_of(text, bits)
    return found if isinstance(found, bytes) else None


def plain_text(text, bits):
    """A text of version 1 for one that is read"""
    return "".join(" ".join(line_of(plain)) + "\n" for plain in plain_of(text, bits)).encode()


def joint_parameters(text, bits):
    """The names of the joint parameters of a text that is read"""
    plain = plain_of(text, bits)
    names = [one.name.encode() for one in plain if one.kind == "uncertain"]
    sets = [one.name.encode() for one in plain if one.kind == "over"]
    return names + [name + b"." + parameter for name in sets for parameter in names]
