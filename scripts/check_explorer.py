#!/usr/bin/env python3
"""Shows that explorer/index.html says, in Chromium over folders of warg_tlog, what Python's own answers say.

Usage: check_explorer.py WARG_TLOG [PICTURES], with the built program; each view is drawn into the folder PICTURES.
Where Chromium isn't there it says so, and that is no failure.
"""

import base64
import functools
import http.server
import pathlib
import re
import shutil
import signal
import subprocess
import sys
import tempfile
import threading

import browser
import trees

PAGE = pathlib.Path(__file__).resolve().parent.parent / "explorer/index.html"
SCRIPT = pathlib.Path(__file__).with_suffix(".js").read_text()
SECONDS, BYTES, SIZES = 420, 60000, (0, 1, 256, 257, 70000)
PAIRS, KEY = [(b"package-%d" % (at % 1000), b"value %d" % at) for at in range(1200)], trees.sha256(b"package-17")
HARMS = {
    "is missing": None,
    "is (cut short|malformed)": lambda it: it[:-7],
    "is (too long|cut short|malformed)": lambda it: it + bytes(300),
    "(was changed|is cut short|doesn’t fit)": lambda it: it[:40] + bytes([it[40] ^ 4]) + it[41:],
}
# Files that are harmed, and a view that reads each.
HARMED = f"""600 tile/0/001 #entry/300, 600 tile/0/002.p/88 #checkpoint, 600 tile/1/000.p/2 #entry/5, 600 tile/entries/001 #entries/10,
600 tile/entries/002.p/88 #checkpoint, 600 checkpoint #checkpoint, registry map/1200 #key/package-17,
registry map/x{KEY.hex()[:2]}/1018 #key/package-17"""
VIEWS = """70000/ 70000/#entries 70000/#entry/69998 70000/#growth 70000/#about registry/ registry/#entries/3 registry/#entry/5
registry/#key/package-17 registry/#key/left-pad growth-0/#growth growth-1/ harm-0-tile-0-001/#entry/300"""
# A checkpoint that follows the one of 600 entries, and what the page says of it.
GROWTHS = {
    "700": "its 600 entries are the first of these 700",
    "700-other": "The log forked",
    "600-other": "The log forked",
    "300": "The checkpoint went back",
    "700-origin": "The log’s origin changed",
    "registry": "The log changed its kind",
}


def entries(count, first=b"entry 0"):
    return [first, *(b"entry %d" % at for at in range(1, count))][:count]


def ran(*words, lines=()):
    given = "".join(f"{it.hex()}\n" for it in lines)
    return subprocess.run([sys.argv[1], *words], input=given, capture_output=True, text=True, check=True).stdout


class Noting(http.server.SimpleHTTPRequestHandler):
    asked = []
    log_message = lambda self, *_: self.asked.append(self.path)


class Reader:
    """The page over the folders of a room. Each part yields what is looked at, and whether the page says it."""

    def __init__(self, room, page):
        self.room, self.page = room, page
        server = http.server.ThreadingHTTPServer(("127.0.0.1", 0), functools.partial(Noting, directory=room))
        threading.Thread(target=server.serve_forever, daemon=True).start()
        self.port = server.server_address[1]

    def make(self, name, lines, origin="example.com/log"):
        ran("init", str(self.room / name), origin)
        ran("append", str(self.room / name), lines=lines)
        ran("page", str(self.room / name))

    def state(self):
        return self.page.value(f"{SCRIPT}.state()")

    def open(self, address, host="127.0.0.1"):
        self.page.call("Page.navigate", url="about:blank")
        self.page.call("Page.navigate", url=f"http://{host}:{self.port}/{address}")
        return self.state()

    def says(self, address, *words):
        state = self.open(address)
        return address, state["kind"] == "verdict good" and all(it in state["text"] for it in words)

    def refuses(self, address, words):
        state = self.open(address)
        well = state["kind"] == "verdict bad" and re.search(words, state["text"]) and "Checked:" not in state["text"]
        return f"{address}: {words}", bool(well)

    def of_log(self, count):
        self.make(str(count), entries(count))
        leaves = [trees.sha256(b"\0", it) for it in entries(count)]
        root, last = trees.root(leaves), f"entry {count - 1}\n" if count else "no entry yet"
        yield self.says(f"{count}/", "first time", f"{count:,}", base64.b64encode(root).decode(), root.hex(), last)
        yield self.says(f"{count}/#growth", "the checkpoint that you saw last")
        yield self.says(f"{count}/#entries/0" if count else "0/#entries", *[f"entry {at}\n" for at in range(min(count, 32))])
        yield f"no entry {count}", "has no entry" in self.open(f"{count}/#entry/{count}")["text"]
        for index in {0, count // 2, count - 1} if count else ():
            yield self.says(f"{count}/#entry/{index}", f"entry {index}\n", leaves[index].hex())
            path, program = [it.hex() for it in trees.path(index, leaves)], ran("prove", str(self.room / str(count)), str(index)).split()
            yield f"the path of {index} of {count}", self.state()["path"] == path == program

    def of_registry(self):
        for name, pairs in {"registry": PAIRS, "none": [], "bytes": [(b"\xff\0", b"\xfe"), (b"", "\u202e".encode())]}.items():
            self.make(name, [b"".join(len(it).to_bytes(8, "big") + it for it in pair) for pair in pairs])
            trees.add_map(self.room / name, pairs)
        yield self.says("registry/", "map/1200", "package-199", "value 1199", "Root of the map")
        for at in [*range(1000, 1200, 90), *range(200, 1000, 90)]:
            yield self.says(f"registry/#key/package-{at % 1000}", "this value stands", f"value {at}\n", f"entry {at:,}", "map/1200")
        yield self.says("registry/#key/left-pad", "nothing stands", trees.sha256(b"left-pad").hex(), "map/1200")
        yield self.says("none/#key/left-pad", "nothing stands", "no key yet")
        yield self.says("bytes/#key-hex/ff00", "this value stands", "fe\n", "ff00")
        yield self.says("bytes/#key/", "this value stands", "U+202E", "entry 1")

    def of_growth(self):
        for name in ("600", *GROWTHS):
            count, *other = name.split("-")
            if not (self.room / name).exists():
                self.make(name, entries(int(count), b"another" if other == ["other"] else b"entry 0"), *["another"] * (other == ["origin"]))
        for at, (then, words) in enumerate(GROWTHS.items()):
            shutil.copytree(self.room / "600", self.room / f"growth-{at}")
            self.open(f"growth-{at}/")
            shutil.copytree(self.room / then, self.room / f"growth-{at}", dirs_exist_ok=True)
            yield (self.refuses if at else self.says)(f"growth-{at}/#entry/5" if at else "growth-0/", words)
        self.page.value("document.querySelector('main button').click()")
        yield "a new beginning", self.state()["kind"] == "verdict good"
        yield self.says(f"growth-{at}/#growth", "the checkpoint that you saw last")

    def of_harm(self):
        for whole, place, address in map(str.split, HARMED.split(",")):
            for at, (words, harm) in enumerate(HARMS.items()):
                name = f"harm-{at}-{place.replace('/', '-')}"
                file = shutil.copytree(self.room / whole, self.room / name) / place
                file.write_bytes(harm(file.read_bytes())) if harm else file.unlink()
                yield self.refuses(f"{name}/{address}", f"{place} {words}")
        file.write_bytes((self.room / whole / place).read_bytes().replace(KEY, b"\0" + KEY[1:]))
        yield self.refuses(f"{name}/{address}", f"{place} was changed")

    def of_removed(self):
        folder = shutil.copytree(self.room / "70000", self.room / "removed")
        shutil.copytree(self.room / "600", folder, dirs_exist_ok=True)
        for place in ("tile/0/002.p/88", "tile/entries/002.p/88"):
            (folder / place).unlink()
        (folder / "checkpoint").write_bytes((folder / "checkpoint").read_bytes() + "\n— example.com/log AAAA\n".encode())
        yield self.says("removed/", "tile/0/002, tile/1/000.p/2", "entry 599\n", "tile/entries/002\n", "— example.com/log AAAA\n")
        self.page.value("document.querySelector('main input').focus()")
        self.page.call("Input.insertText", text="598")
        self.page.call("Input.dispatchKeyEvent", type="keyDown", key="Enter", windowsVirtualKeyCode=13, text="\r")
        self.page.value("new Promise(done => setTimeout(done, 300))")
        yield "by keyboard", "Entry 598" in self.state()["text"] and self.state()["focus"] == "H1"
        yield "no SHA-256", "WebCrypto" in self.open("1/", "log.test")["text"]

    def of_looks(self, pictures):
        for at, address in enumerate(VIEWS.split()):
            for wide, scheme in ((390, "light"), (390, "dark"), (1280, "light"), (1280, "dark")):
                self.page.call("Emulation.setDeviceMetricsOverride", width=wide, height=900, deviceScaleFactor=1, mobile=False)
                self.page.call("Emulation.setEmulatedMedia", features=[{"name": "prefers-color-scheme", "value": scheme}])
                self.open(address)
                looks = self.page.value(f"{SCRIPT}.looks()")
                yield f"{address} at {wide}, {scheme}: {looks}", looks["over"] <= 0 and looks["contrast"] >= 4.5 and not looks["unnamed"]
                clip = {"x": 0, "y": 0, "width": wide, "height": looks["high"], "scale": 1}
                picture = self.page.call("Page.captureScreenshot", captureBeyondViewport=True, clip=clip)
                pathlib.Path(pictures, f"{at:02}-{wide}-{scheme}.png").write_bytes(base64.b64decode(picture["data"]))


def tried(room, profile, pictures):
    text = PAGE.read_text()
    yield f"{len(text.encode())} bytes", len(text.encode()) <= BYTES
    for name in ("style", "script"):
        digest = base64.b64encode(trees.sha256(re.search(f"<{name}>(.*?)</{name}>", text, re.S)[1].encode())).decode()
        yield f"the page's policy has to allow {name}-src 'sha256-{digest}'", f"{name}-src 'sha256-{digest}'" in text
    with browser.Browser(profile) as page:
        reader = Reader(pathlib.Path(room), page)
        for part in (*map(reader.of_log, SIZES), reader.of_registry()):
            yield from part
        yield f"the console: {page.errors}", not page.errors
        for part in (reader.of_growth(), reader.of_harm(), reader.of_removed(), reader.of_looks(pictures)):
            yield from part
        others = [it for it in page.errors if "404" not in it]
        others += [it for it in Noting.asked if not re.fullmatch(r"/[^/]+/(|checkpoint|(tile|map)/.*)", it)]
        yield f"errors and strange requests: {others}", not others


def main():
    if not browser.PROGRAM:
        sys.exit(print("explorer: not run, chromium is missing"))
    signal.signal(signal.SIGALRM, signal.default_int_handler)
    signal.alarm(SECONDS)
    # What the browser still writes when it is killed is no fault of the page.
    profile = tempfile.TemporaryDirectory(ignore_cleanup_errors=True)
    with tempfile.TemporaryDirectory() as room, profile, tempfile.TemporaryDirectory() as pictures:
        came = [*tried(room, profile.name, [*sys.argv[2:], pictures][0])]
    failed = [name for name, well in came if not well]
    print(*(f"not as it should be: {name}\n" for name in failed), sep="", end="")
    print(f"explorer: {len(came) - len(failed)} of {len(came)} states of the page are as they should be")
    sys.exit(bool(failed))


main()
