#!/usr/bin/env python3
"""Answers the check lines of the vectors (docs/VECTORS.md) through ffi/python/warg.py: a line in, a line out.

    python3 ffi/examples/check.py < lines
"""

import pathlib
import sys

sys.path.insert(0, str(pathlib.Path(__file__).parents[1] / "python"))
import warg  # noqa: E402

# Which words of a line are numbers.
NUMBERS = {
    "check_entry": (2, 3, 5),
    "check_growth": (2, 3, 5),
    "check_inclusion": (2,),
    "check_consistency": (2,),
    "check_key": (2,),
    "check_absent": (2,),
    "check_update": (2,),
    "check_insertion": (2,),
    "check_record": (2, 4),
    "check_tree": (2, 4),
}
# The calls that take a path, whose bytes can have one fault alone.
OF_PATHS = ("check_record", "check_tree")


def name_of(refusal, call):
    """Returns a refusal as the vectors say it."""
    name = type(refusal).__name__
    if isinstance(refusal, warg.OutOfMemory):
        return "Memory"
    if call in OF_PATHS or not isinstance(refusal, warg.BadBytes):
        return name
    of_message = isinstance(refusal, (warg.HashLength, warg.NotAscending, warg.TooManyPeers))
    return f"Decode({name})" if of_message else f"Decode(Wire({name}))"


def answer(library, line):
    """Returns the answer to a line of the vectors."""
    call, *words = line.split()
    numbers = NUMBERS[call]
    given = [int(word) if at in numbers else bytes.fromhex(word.strip("-")) for at, word in enumerate(words, 1)]
    try:
        return "true" if getattr(library, call)(*given) else "false"
    except warg.RootLength:
        return "bad call"
    except warg.Refused as refusal:
        return f"refused {name_of(refusal, call)}"


if __name__ == "__main__":
    library = warg.Warg()
    for line in sys.stdin:
        print(answer(library, line))
