#!/usr/bin/env python3
"""Shows how many compressions of SHA-256 and how many instructions calls take, by valgrind's callgrind: the difference of two
runs of warg_bench, that of `make bench`, one of which makes the call more often.

Usage: bench_counts.py [PART]
"""

import pathlib
import re
import subprocess
import sys
import tempfile

import kit

# The part of the program, the name of a call, how often it is made, and how many pieces it has.
CALLS = """
logs: VecLog::push: 1: 100000
logs: inclusion evaluation: 100: 1
logs: consistency evaluation: 300: 1
logs: consistency evaluation from 65,535: 1: 1
logs: root_of_inclusion: 100: 1
maps: Map::prove: 100: 1
more maps: Map::insert: 1: 10000
more maps: Map::insert of a known key: 10: 1
more maps: evaluation of a map's proof: 10: 1
more maps: Map::extend: 1: 10000
more maps: two Map::extend: 1: 10000
verdicts: 10,000 insert lines and a map: 1: 1
"""


def counted(part, call, times):
    """Returns the compressions and the instructions of a run that makes a call so often."""
    with tempfile.NamedTemporaryFile() as file:
        program = kit.ROOT / "crates/warg_bench/out/proved/warg_bench"
        words = ["valgrind", "-q", "--tool=callgrind", f"--callgrind-out-file={file.name}", program, part, call, times]
        subprocess.run(words, check=True)
        text = pathlib.Path(file.name).read_text()
    names = dict(re.findall(r"^c?fn=(\(\d+\)) (.+)$", text, re.M))
    calls = re.findall(r"^cfn=(\(\d+\)).*\n(?:.*\n)??calls=(\d+)", text, re.M)
    compressions = sum(int(count) for callee, count in calls if re.search(r"sha2::\w+::compress\b", names[callee]))
    return compressions, int(re.search(r"^(?:totals|summary): (\d+)", text, re.M)[1])


for part, call, times, pieces in (line.split(": ") for line in CALLS.strip().splitlines()):
    if part in (sys.argv[1:] or [part]):
        none, made = counted(part, call, "0"), counted(part, call, times)
        compressions, instructions = ((after - before) / int(times) / int(pieces) for before, after in zip(none, made))
        print(f"{call}, of {part}: {compressions:.1f} compressions, {instructions:.0f} instructions", flush=True)
