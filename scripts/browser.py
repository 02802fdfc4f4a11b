"""A page of a browser without a window, by Chromium's own protocol over a pipe."""

import json
import os
import shutil
import signal
import subprocess

SETTINGS = ["--headless", "--remote-debugging-pipe", "--no-sandbox", "--no-first-run", "--disable-gpu", "--disable-dev-shm-usage",
            "--hide-scrollbars", "--disable-background-networking", "--disable-component-update",
            "--host-resolver-rules=MAP log.test 127.0.0.1"]
PROGRAM = shutil.which("chromium") or shutil.which("chromium-browser")


class Browser:
    """A page, which ends with the block. Its field errors lists what its console calls an error."""

    def __init__(self, profile):
        (out, self.into), (self.out, into) = os.pipe(), os.pipe()
        # It reads messages from 3 and writes them to 4.
        words = ["sh", "-c", f'exec 3<&{out} 4>&{into}; exec "$@"', "sh", PROGRAM, *SETTINGS, f"--user-data-dir={profile}"]
        self.process = subprocess.Popen(words, pass_fds=(out, into), stdout=subprocess.DEVNULL, stderr=subprocess.DEVNULL,
                                        start_new_session=True)
        for end in (out, into):
            os.close(end)
        self.count, self.session, self.rest, self.errors = 0, {}, b"", []

    def __enter__(self):
        target = self.call("Target.createTarget", url="about:blank")["targetId"]
        self.session = {"sessionId": self.call("Target.attachToTarget", targetId=target, flatten=True)["sessionId"]}
        for domain in ("Page", "Runtime", "Log"):
            self.call(f"{domain}.enable")
        return self

    def __exit__(self, *_):
        # Its own processes write to the profile, too.
        os.killpg(self.process.pid, signal.SIGKILL)
        self.process.wait()

    def message(self):
        while b"\0" not in self.rest:
            more = os.read(self.out, 1 << 16)
            if not more:
                raise OSError("the browser has ended")
            self.rest += more
        text, _, self.rest = self.rest.partition(b"\0")
        return json.loads(text)

    def call(self, method, **given):
        self.count += 1
        os.write(self.into, json.dumps({"id": self.count, "method": method, "params": given, **self.session}).encode() + b"\0")
        while (answer := self.message()).get("id") != self.count:
            told = answer.get("params", {})
            if answer.get("method") == "Runtime.exceptionThrown" or told.get("entry", {}).get("level") in ("error", "warning"):
                self.errors.append(str(told.get("entry", told).get("text", told)))
        return answer["result"]

    def value(self, script):
        return self.call("Runtime.evaluate", expression=script, awaitPromise=True, returnByValue=True)["result"].get("value")
