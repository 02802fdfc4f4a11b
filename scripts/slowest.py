#!/usr/bin/env python3
"""Shows what took longest in a crate's first check: slowest.py NAME. A check writes each file that it keeps as it ends with it, and
a pause above 90 seconds lies between two checks. Remove crates/NAME/out/incremental and check again for a whole profile."""

import collections
import re
import sys

import kit

# What the prover calls the parts of a function's proof.
PARTS = r"Lts|Tie|Kinds|Proof|Goals|Answers|Carried|Code|Given|Instances|Invariants|Layout|Met|Named|Reads|Statement|Symbol|TheLink"
MODULE = re.compile(rf"Rattle-\w+-proofs\.(.+?)(?:\.(?:{PARTS})(?:-[^.]*)?(?:\.[^.]+)?)?(?:\.decls)?\.oantt")

files = sorted((it.stat().st_mtime, it.name) for it in (kit.ROOT / "crates" / sys.argv[1] / "out/incremental").rglob("*.oantt"))
seconds = collections.Counter()
for (before, _), (at, name) in zip(files, files[1:]):
    for module in MODULE.findall(name) if at - before < 90 else ():
        seconds[module] += at - before
print(*(f"{taken:6.1f}  {module}" for module, taken in [*seconds.most_common(20), ("all", sum(seconds.values()))]), sep="\n")
