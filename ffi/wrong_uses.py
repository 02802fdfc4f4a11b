#!/usr/bin/env python3
"""Calls ffi/python/warg.py as nobody should: each call must raise, in few words, and none may return a verdict. And with each
type of bytes that it takes."""

import pathlib
import sys

sys.path.insert(0, str(pathlib.Path(__file__).parent / "python"))
from warg import RootLength, Warg  # noqa: E402

ROOT = bytes(32)
# A bundle with one proof: of node 2 at length 2, with the digest of node 0.
BUNDLE = bytes.fromhex("08021a010222221220") + bytes(32)
WRONG = {
    "an index of 2^64 + 1": (ValueError, lambda warg: warg.check_entry(BUNDLE, 0, 2**64 + 1, b"", 2, ROOT)),
    "an index below 0": (ValueError, lambda warg: warg.check_entry(BUNDLE, 0, -1, b"", 2, ROOT)),
    "a place of 2^64": (ValueError, lambda warg: warg.check_key(BUNDLE, 2**64, b"", b"", ROOT)),
    "a length of 2^64": (ValueError, lambda warg: warg.check_growth(BUNDLE, 0, 2**64, ROOT, 2, ROOT)),
    "a truth for an index": (TypeError, lambda warg: warg.check_entry(BUNDLE, 0, True, b"", 2, ROOT)),
    "a number for a value": (TypeError, lambda warg: warg.check_entry(BUNDLE, 0, 1, 7, 2, ROOT)),
    "a number for a bundle": (TypeError, lambda warg: warg.check_absent(7, 0, b"", ROOT)),
    "a text for a key": (TypeError, lambda warg: warg.check_key(BUNDLE, 0, "key", b"", ROOT)),
    "nothing for a root": (TypeError, lambda warg: warg.check_inclusion(BUNDLE, 0, b"", None)),
    "a number for an old value": (TypeError, lambda warg: warg.check_update(BUNDLE, 0, b"", 7, b"", ROOT, ROOT)),
    "a place of an insertion below 0": (ValueError, lambda warg: warg.check_insertion(BUNDLE, -1, b"", b"", ROOT, ROOT)),
    "a path's index of 2^64": (ValueError, lambda warg: warg.check_record(ROOT, 2**64, b"", 2, ROOT)),
    "a number for a path": (TypeError, lambda warg: warg.check_tree(7, 1, ROOT, 2, ROOT)),
    "a root of 31 bytes": (RootLength, lambda warg: warg.check_inclusion(BUNDLE, 0, b"", ROOT[1:])),
    "a text of a million letters": (TypeError, lambda warg: warg.check_key("a" * 1000000, 0, b"", b"", ROOT)),
    "a number of a million digits": (ValueError, lambda warg: warg.check_key(BUNDLE, 1 << 3000000, b"", b"", ROOT)),
}


def main():
    warg, taken = Warg(), []
    for name, (error, call) in WRONG.items():
        try:
            call(warg)
            taken.append(name)
        except error as refusal:
            if len(str(refusal)) > 100:
                taken.append(f"{name}, in {len(str(refusal))} letters")
    for kind in (bytes, bytearray, memoryview):
        if warg.check_entry(kind(BUNDLE), 0, 1, kind(b"two"), 2, kind(ROOT)):
            taken.append(f"a wrong root as {kind.__name__}")
    if taken:
        sys.exit(f"taken: {', '.join(taken)}")
    print(f"{len(WRONG)} wrong uses of the Python module are refused")


main()
