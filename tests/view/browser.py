"""Chromium without a window, driven by its own protocol over two pipes: what a test asks of a page."""
import base64
import json
import os
import shutil
import subprocess
import tempfile
import time
from pathlib import Path


def found():
    """The browser, if it is there."""
    return shutil.which("chromium") or shutil.which("chromium-browser") or shutil.which("google-chrome")


class Browser:
    """A browser with one page."""

    def __init__(self, width=1400, height=900):
        self.folder = tempfile.TemporaryDirectory()
        to_browser, self.out = os.pipe()
        self.incoming, from_browser = os.pipe()
        words = [found(), "--headless=new", "--no-sandbox", "--disable-gpu", "--disable-dev-shm-usage",
                 f"--user-data-dir={self.folder.name}", f"--window-size={width},{height}", "--remote-debugging-pipe",
                 "about:blank"]
        self.program = subprocess.Popen(["sh", "-c", f'exec "$@" 3<&{to_browser} 4>&{from_browser}', "sh", *words],
                                        pass_fds=(to_browser, from_browser), stdout=subprocess.DEVNULL,
                                        stderr=subprocess.DEVNULL, start_new_session=True)
        os.close(to_browser)
        os.close(from_browser)
        self.count, self.rest, self.session = 0, b"", None
        page = next(it for it in self.call("Target.getTargets")["targetInfos"] if it["type"] == "page")
        self.session = self.call("Target.attachToTarget", targetId=page["targetId"], flatten=True)["sessionId"]
        self.call("Page.enable")
        self.faults = []
        self.call("Runtime.enable")

    def __enter__(self):
        return self

    def __exit__(self, *_):
        self.program.terminate()
        self.program.wait(30)
        os.close(self.out)
        os.close(self.incoming)
        try:
            self.folder.cleanup()
        except OSError:
            pass

    def message(self):
        while b"\0" not in self.rest:
            piece = os.read(self.incoming, 1 << 20)
            if not piece:
                raise RuntimeError("the browser has gone")
            self.rest += piece
        text, self.rest = self.rest.split(b"\0", 1)
        message = json.loads(text)
        if message.get("method") == "Runtime.exceptionThrown":
            self.faults.append(message["params"]["exceptionDetails"])
        return message

    def call(self, method, **params):
        """Asks for something, and answers the result."""
        self.count += 1
        asked = {"id": self.count, "method": method, "params": params}
        if self.session:
            asked["sessionId"] = self.session
        data = json.dumps(asked).encode() + b"\0"
        while data:
            data = data[os.write(self.out, data):]
        while True:
            message = self.message()
            if message.get("id") == self.count:
                if "error" in message:
                    raise RuntimeError(message["error"])
                return message["result"]

    def spent(self):
        """The seconds of a processor that all processes of the browser have taken."""
        ticks = 0
        for stat in Path("/proc").glob("[0-9]*/stat"):
            try:
                fields = stat.read_text().rpartition(")")[2].split()
            except OSError:
                continue
            if int(fields[3]) == self.program.pid:
                ticks += int(fields[11]) + int(fields[12])
        return ticks / os.sysconf("SC_CLK_TCK")

    def open(self, file):
        """Opens a file, and answers how long it took until its script has shown it: the seconds that went by, or those
        that a processor worked for it if they are less, since other programs may have had the processors."""
        begin, spent = time.monotonic(), self.spent()
        self.call("Page.navigate", url=f"file://{file}")
        while self.run("document.readyState === 'complete' && typeof view !== 'undefined' && view.rows > 0") is not True:
            time.sleep(0.02)
        return min(time.monotonic() - begin, self.spent() - spent)

    def run(self, script):
        """The value of a script, once it is there."""
        done = self.call("Runtime.evaluate", expression=script, awaitPromise=True, returnByValue=True)
        if "exceptionDetails" in done:
            raise RuntimeError(done["exceptionDetails"])
        return done["result"].get("value")

    def key(self, name, text=""):
        for kind in ("keyDown", "keyUp"):
            self.call("Input.dispatchKeyEvent", type=kind, key=name, text=text if kind == "keyDown" else "")

    def press_tab(self):
        """Goes on to the next control."""
        for kind in ("rawKeyDown", "keyUp"):
            self.call("Input.dispatchKeyEvent", type=kind, key="Tab", code="Tab", windowsVirtualKeyCode=9)

    def picture(self, file, dark=False):
        """Writes what is to be seen."""
        scheme = {"name": "prefers-color-scheme", "value": "dark" if dark else "light"}
        self.call("Emulation.setEmulatedMedia", features=[scheme])
        data = self.call("Page.captureScreenshot", format="png")["data"]
        with open(file, "wb") as it:
            it.write(base64.b64decode(data))
