#!/usr/bin/env python3
"""Shows that the tree may be merged, on a copy of it without what earlier checks left: looks.py and pages.py, which look at the text;
the kit's own gate, rt ci, which proves each crate and its tests from nothing, unless a run on this machine has proved the same files,
and runs the tests and the programs; the wrong bodies over the libraries that it has built; the examples for C, Python, Rust and Go;
the archive of make dist, packed twice; the programs with right and wrong arguments, and disturbed; and the comparisons with Google's
protobuf and Go's checksum database, and the page of explorer/ in Chromium, where these are there.

Prints what each part took in processor minutes, and last 'N passed, M failed'.
"""

import os
import pathlib
import re
import resource
import subprocess
import sys
import tempfile
import time

import kit

CHECK, VERDICT, TLOG, VECTORS = (f"crates/{it}/out/{it}" for it in ("warg_check_cli", "warg_verdict", "warg_tlog", "warg_vectors"))
TWICE = "scripts/dist.sh --as-proved; mv dist first; scripts/dist.sh --as-proved; diff -r first dist"
BEFORE = {
    "the text": ["looks.py"],
    "the pages": ["pages.py", "--check"],
    "proofs, builds and tests": ["rt", "ci"],
}
# What is tried over the libraries and the programs that have been built.
BEHIND = {
    "wrong bodies": ["wrong_bodies.py"],
    "examples for C, Python, Rust and Go, and the archive": ["bash", "-ec", f"ffi/build.sh --as-proved; ffi/test.sh; {TWICE}"],
    "the programs": ["check_programs.py", CHECK, VERDICT, TLOG, "warg_check", "warg_verdict", "warg_tlog"],
    "appends that are disturbed": ["check_programs.py", CHECK, VERDICT, TLOG, "disturbed", "power"],
    "comparison with Google's protobuf": ["check_programs.py", CHECK, VERDICT, TLOG, "protobuf"],
    "comparison with Go's checksum database": ["interop/run.sh", VECTORS, CHECK, TLOG],
    "the page in a browser": ["check_explorer.py", TLOG],
}
# Tries to install what the results are compared with, where one lacks. What stays missing is left out.
INSTALL = """type apt-get && [ "$(id -u)" = 0 ] && ! type go protoc strace chromium && export DEBIAN_FRONTEND=noninteractive || exit 0
timeout 300 apt-get update
for it in golang-go golang-golang-x-mod-dev protobuf-compiler strace chromium; do timeout 300 apt-get install -y "$it"; done"""
# The files that git tracks, and the new ones that it does not ignore (whoever owns the checkout).
COPY = """set -o pipefail; git -c safe.directory='*' ls-files -z --cached --others --exclude-standard |
(xargs -0r ls -d 2> /dev/null || true) | tar -cT - | tar -xC "$0" """
COUNTED = re.compile(r"(?:[\w ]+: )?(\d+) (?:ok|refused|passed), (\d+) failed")
# What rt ci says of each item that is proved and each library that is read.
USUAL = re.compile(r"(?:fn|struct|enum|trait|impl|macro) .*: proved$|(?:statements|logic|by-macro:|crate) ")


def used():
    """Returns the processor seconds of all that has ended below this process."""
    spent = resource.getrusage(resource.RUSAGE_CHILDREN)
    return spent.ru_utime + spent.ru_stime


def tried(tree, words):
    """Runs a part and shows what it says. Returns how much passed and failed: what it counts, or itself; or none, if it isn't run."""
    words = [sys.executable, f"scripts/{words[0]}", *words[1:]] if words[0].endswith(".py") else words
    line, is_run = "", True
    with subprocess.Popen(words, cwd=tree, stdout=subprocess.PIPE, text=True, errors="replace") as part:
        for line in part.stdout:
            print("" if USUAL.match(line) else line, end="", flush=True)
            is_run = is_run and ": not run, " not in line and not line.startswith("0 of 0 ")
    counted = COUNTED.match(line)
    if counted and bool(int(counted[2])) == bool(part.returncode):
        return int(counted[1]), int(counted[2])
    return (int(is_run), 0) if not part.returncode and not counted else (0, 1)


def main():
    began, passed, failed, minutes = time.monotonic(), 0, 0, {}
    subprocess.run(["bash", "-c", INSTALL], stdin=subprocess.DEVNULL, stdout=subprocess.DEVNULL, stderr=subprocess.DEVNULL)
    with tempfile.TemporaryDirectory(prefix="warg-gate-") as room:
        tree = pathlib.Path(room, "tree")
        tree.mkdir()
        subprocess.run(["bash", "-c", COPY, tree], cwd=kit.ROOT, check=True)
        for title, words in [*BEFORE.items(), *BEHIND.items()]:
            before = used()
            well, badly = tried(tree, words)
            passed, failed, minutes[title] = passed + well, failed + badly, (used() - before) / 60
            if badly and title == [*BEFORE][-1]:
                break
    print("| part | processor minutes |", "|---|---|", *(f"| {title} | {it:.1f} |" for title, it in minutes.items()), sep="\n")
    clock = (time.monotonic() - began) / 60
    print(f"| in all | {used() / 60:.0f}, by the clock {clock:.0f}, on {len(os.sched_getaffinity(0))} processors |")
    print(f"{passed} passed, {failed} failed")
    sys.exit(bool(failed))


if __name__ == "__main__":
    main()
