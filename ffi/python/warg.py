"""Verdicts on the proofs of transparency logs and maps, from their bytes, under SHA-256, by ctypes over libwarg.so.

    from warg import Warg

    warg = Warg()
    if warg.check_entry(bundle, 0, index, value, length, root):
        ...

Each call returns a bool, or raises the `Refused` that says why there is no verdict. The library lies beside this file.
"""

import ctypes
import pathlib


class Refused(Exception):
    """There is no verdict, for the reason that the class names."""


class OutOfMemory(Refused, MemoryError):
    """Memory ran out. This says nothing of the proof."""


class NoSuchProof(Refused, LookupError):
    """The bundle has no proof of the kind at the place."""


class RootLength(Refused, ValueError):
    """A root is not 32 bytes."""


class BadBytes(Refused, ValueError):
    """The bytes are no bundle, or no path: one class below for each first fault."""


class Truncated(BadBytes):
    """They end inside a number or a field."""


class BadVarint(BadBytes):
    """The tenth byte of a varint is above 1."""


class BadTag(BadBytes):
    """A tag is above 2^32 - 1, or its field number is 0."""


class Group(BadBytes):
    """A field has wire type 3 or 4."""


class BadWireType(BadBytes):
    """A field has wire type 6 or 7."""


class WrongWireType(BadBytes):
    """A known field has another wire type than its own."""


class NumberTooLarge(BadBytes):
    """A number is above 2^32 - 1."""


class HashLength(BadBytes):
    """A digest is not 32 bytes, or a path's bytes are no multiple of 32."""


class NotAscending(BadBytes):
    """A digest's node is not above the one before."""


class TooManyPeers(BadBytes):
    """A map's proof has more than 256 peers."""


# The numbers of warg.h.
REFUSALS = {
    -1: OutOfMemory,
    -2: NoSuchProof,
    -3: RootLength,
    -11: Truncated,
    -12: BadVarint,
    -13: BadTag,
    -14: Group,
    -15: BadWireType,
    -16: WrongWireType,
    -17: NumberTooLarge,
    -21: HashLength,
    -22: NotAscending,
    -23: TooManyPeers,
}

# The arguments that are numbers.
NUMBERS = ("at", "index", "length", "old_length", "new_length")


class Warg:
    """The calls of the library.

    A bundle, a path, a value, a key and a root are `bytes`, `bytearray` or `memoryview`; a root has 32 of them. A place in
    a bundle (`at`), an index and a length are an `int` from 0 to 2^64 - 1, and count from 0. Anything else raises
    `TypeError` or `ValueError` before the library is called: ctypes would cut a number to its last 64 bits, and take a
    number for a pointer.
    """

    def __init__(self, path=pathlib.Path(__file__).with_name("libwarg.so")):
        """Opens the library: the one beside this file, unless another path is given."""
        self._library = ctypes.CDLL(str(path))

    def version(self):
        """Returns the library's version, a byte for each number: 0.9.2-rattle.1 is 0x00090201."""
        call = self._library.warg_version
        call.restype = ctypes.c_uint32
        return call()

    def check_entry(self, bundle, at, index, value, length, root):
        """Whether the inclusion proof shows that the log of this length and root has the value at the index."""
        return self._verdict("check_entry", bundle=bundle, at=at, index=index, value=value, length=length, root=root)

    def check_growth(self, bundle, at, old_length, old_root, new_length, new_root):
        """Whether the consistency proof shows that the old log is a beginning of the new one.

        It is false from an empty log, which every log continues.
        """
        old = {"old_length": old_length, "old_root": old_root}
        return self._verdict("check_growth", bundle=bundle, at=at, **old, new_length=new_length, new_root=new_root)

    def check_inclusion(self, bundle, at, value, root):
        """Whether the inclusion proof leads from the value to the root. It checks neither length nor index."""
        return self._verdict("check_inclusion", bundle=bundle, at=at, value=value, root=root)

    def check_consistency(self, bundle, at, old_root, new_root):
        """Whether the consistency proof leads to the two roots. It checks no length."""
        return self._verdict("check_consistency", bundle=bundle, at=at, old_root=old_root, new_root=new_root)

    def check_key(self, bundle, at, key, value, root):
        """Whether the proof shows that the map with this root holds the value under the key."""
        return self._verdict("check_key", bundle=bundle, at=at, key=key, value=value, root=root)

    def check_absent(self, bundle, at, key, root):
        """Whether the absence shows that the map with this root holds nothing under the key, or a value without bytes."""
        return self._verdict("check_absent", bundle=bundle, at=at, key=key, root=root)

    def check_update(self, bundle, at, key, old_value, new_value, old_root, new_root):
        """Whether the proof shows that the new map is the old one with the new value under the key in place of the old."""
        values, roots = {"old_value": old_value, "new_value": new_value}, {"old_root": old_root, "new_root": new_root}
        return self._verdict("check_update", bundle=bundle, at=at, key=key, **values, **roots)

    def check_insertion(self, bundle, at, key, value, old_root, new_root):
        """Whether the absence shows that the new map is the old one and the value under a key that had none, or no bytes."""
        roots = {"old_root": old_root, "new_root": new_root}
        return self._verdict("check_insertion", bundle=bundle, at=at, key=key, value=value, **roots)

    def check_record(self, path, index, value, length, root):
        """Whether the inclusion path shows that the log of this length and root has the value at the index.

        A path is its digests, 32 bytes each, from the bottom up (RFC 6962, section 2.1.1).
        """
        return self._verdict("check_record", path=path, index=index, value=value, length=length, root=root)

    def check_tree(self, path, old_length, old_root, new_length, new_root):
        """Whether the consistency path shows that the old log is a beginning of the new one (RFC 6962, section 2.1.2).

        It is false from an empty log, of which no path is made.
        """
        old = {"old_length": old_length, "old_root": old_root}
        return self._verdict("check_tree", path=path, **old, new_length=new_length, new_root=new_root)

    def _verdict(self, name, **arguments):
        """Makes a call of the library: its arguments are these, in their order."""
        call = getattr(self._library, f"warg_{name}")
        call.restype = ctypes.c_int32
        number = call(*(part for it in arguments.items() for part in (_number if it[0] in NUMBERS else _bytes)(*it)))
        if number < 0:
            raise REFUSALS[number](REFUSALS[number].__doc__)
        return number == 1


def _number(name, number):
    """Returns a number as the library takes it."""
    if not isinstance(number, int) or isinstance(number, bool):
        raise TypeError(f"{name} must be an int, not {type(number).__name__}")
    if not 0 <= number < 1 << 64:
        raise ValueError(f"{name} is {'below 0' if number < 0 else 'above 2^64 - 1'}")
    return [ctypes.c_uint64(number)]


def _bytes(name, given):
    """Returns bytes as the library takes them: a pointer and a length."""
    if not isinstance(given, (bytes, bytearray, memoryview)):
        raise TypeError(f"{name} must be bytes, bytearray or memoryview, not {type(given).__name__}")
    given = bytes(given)
    return [ctypes.c_char_p(given), ctypes.c_size_t(len(given))]
