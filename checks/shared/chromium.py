"""A headless Chromium that a check drives by its DevTools protocol, over a pipe."""
import base64
import json
import os
import shutil
import struct
import subprocess
import tempfile
import zlib

NAMES = ("chromium", "chromium-browser", "google-chrome", "google-chrome-stable")
# The size of a picture, so many of its colours as are asked for, as bytes, and of each point the place of the nearest of them.
FEW_COLOURS = """(async (data, most) => {
  const image = await createImageBitmap(await (await fetch(`data:image/png;base64,${data}`)).blob());
  const canvas = new OffscreenCanvas(image.width, image.height).getContext("2d");
  canvas.drawImage(image, 0, 0);
  const points = new Uint32Array(canvas.getImageData(0, 0, image.width, image.height).data.buffer), counts = new Map();
  points.forEach((it) => counts.set(it, (counts.get(it) ?? 0) + 1));
  const kept = [...counts.keys()].sort((one, other) => counts.get(other) - counts.get(one)).slice(0, most);
  const parts = (it) => [it & 255, (it >> 8) & 255, (it >> 16) & 255];
  const far = (one, other) => parts(one).reduce((sum, it, at) => sum + (it - parts(other)[at]) ** 2, 0);
  const nearest = (it) => kept.reduce((best, other, at) => (far(it, other) < far(it, kept[best]) ? at : best), 0);
  const places = new Map(Array.from(counts.keys(), (it) => [it, nearest(it)]));
  return [image.width, image.height, kept.flatMap(parts), btoa(Array.from(points, (it) => String.fromCharCode(places.get(it))).join(""))];
})"""


def found():
    """The path of a Chromium, or None."""
    return next(filter(None, map(shutil.which, NAMES)), None)


def png(width, height, colours, places):
    """The bytes of a PNG, of colours as bytes and of each point's place among them."""
    rows = b"".join(b"\0" + places[at : at + width] for at in range(0, len(places), width))
    size = struct.pack(">IIBBBBB", width, height, 8, 3, 0, 0, 0)
    parts = ((b"IHDR", size), (b"PLTE", bytes(colours)), (b"IDAT", zlib.compress(rows, 9)), (b"IEND", b""))
    packed = (struct.pack(">I", len(it)) + kind + it + struct.pack(">I", zlib.crc32(kind + it)) for kind, it in parts)
    return b"\x89PNG\r\n\x1a\n" + b"".join(packed)


class Chromium:
    """One page of a browser that ends with the `with` block."""

    def __init__(self):
        self.room = tempfile.TemporaryDirectory(prefix="chromium-", ignore_cleanup_errors=True)
        (to_read, write), (read, to_write) = os.pipe(), os.pipe()
        words = [found(), "--headless=new", "--no-sandbox", "--disable-gpu", "--disable-dev-shm-usage", "--no-first-run",
                 "--remote-debugging-pipe", f"--user-data-dir={self.room.name}", "about:blank"]

        def place():
            # (Chromium reads from 3 and writes to 4)
            source, target = os.dup(to_read), os.dup(to_write)
            os.dup2(source, 3)
            os.dup2(target, 4)

        self.process = subprocess.Popen(
            words, stdin=subprocess.DEVNULL, stdout=subprocess.DEVNULL, stderr=subprocess.DEVNULL, close_fds=False, preexec_fn=place
        )
        os.close(to_read)
        os.close(to_write)
        self.write, self.read, self.number, self.session = open(write, "wb", 0), open(read, "rb", 0), 0, None
        self.waiting, self.events = b"", []
        target = next(it for it in self.call("Target.getTargets")["targetInfos"] if it["type"] == "page")
        self.session = self.call("Target.attachToTarget", targetId=target["targetId"], flatten=True)["sessionId"]
        self.call("Page.enable")
        self.call("Runtime.enable")

    def __enter__(self):
        return self

    def __exit__(self, *_):
        self.write.close()
        try:
            self.process.wait(10)
        except subprocess.TimeoutExpired:
            self.process.kill()
            self.process.wait()
        self.read.close()
        self.room.cleanup()

    def message(self):
        """The next message of the browser."""
        while b"\0" not in self.waiting:
            piece = self.read.read(1 << 16)
            if not piece:
                raise RuntimeError("Chromium ended")
            self.waiting += piece
        text, _, self.waiting = self.waiting.partition(b"\0")
        return json.loads(text)

    def call(self, method, **parameters):
        """A call of the protocol; its result."""
        self.number += 1
        asked = {"id": self.number, "method": method, "params": parameters}
        if self.session:
            asked["sessionId"] = self.session
        self.write.write(json.dumps(asked).encode() + b"\0")
        while True:
            answer = self.message()
            if answer.get("id") == self.number:
                if "error" in answer:
                    raise RuntimeError(f"{method}: {answer['error']}")
                return answer["result"]
            self.events.append(answer)

    def wait_for(self, method):
        """Reads until an event of the name comes."""
        while not any(it.get("method") == method for it in self.events):
            self.events.append(self.message())

    def open(self, path):
        """Opens a file as whoever clicks on it, and waits until it is loaded."""
        self.events.clear()
        self.call("Page.navigate", url=f"file://{path}")
        self.wait_for("Page.loadEventFired")

    def faults(self):
        """What was thrown and not caught."""
        thrown = [it["params"]["exceptionDetails"] for it in self.events if it.get("method") == "Runtime.exceptionThrown"]
        return [it.get("exception", {}).get("description", it["text"]) for it in thrown]

    def run(self, script):
        """The value of an expression, which may be a promise."""
        answer = self.call("Runtime.evaluate", expression=script, returnByValue=True, awaitPromise=True, userGesture=True)
        if "exceptionDetails" in answer:
            thrown = answer["exceptionDetails"]
            raise RuntimeError(thrown.get("exception", {}).get("description", thrown["text"]))
        return answer["result"].get("value")

    def picture(self, clip, colours):
        """A picture of a part of the page, as a PNG of so many colours, at most 256."""
        shot = self.call("Page.captureScreenshot", format="png", clip=clip)
        width, height, kept, places = self.run(f"{FEW_COLOURS}({json.dumps(shot['data'])}, {colours})")
        return png(width, height, kept, base64.b64decode(places))

    def press(self, key, shift=False):
        """A key, as a user presses it."""
        codes = {"Tab": 9, "Enter": 13, "PageUp": 33, "PageDown": 34, "End": 35, "Home": 36,
                 "ArrowLeft": 37, "ArrowUp": 38, "ArrowRight": 39, "ArrowDown": 40}
        how = {"key": key, "code": key, "windowsVirtualKeyCode": codes[key], "modifiers": 8 if shift else 0}
        if key == "Enter":
            how["text"] = "\r"
        self.call("Input.dispatchKeyEvent", type="keyDown", **how)
        self.call("Input.dispatchKeyEvent", type="keyUp", **{name: it for name, it in how.items() if name != "text"})

    def click(self, selector):
        """A click in the middle of an element, as a user clicks."""
        script = "(({ left, top, width, height }) => [left + width / 2, top + height / 2])"
        x, y = self.run(f"{script}(document.querySelector({json.dumps(selector)}).getBoundingClientRect())")
        for kind in ("mousePressed", "mouseReleased"):
            self.call("Input.dispatchMouseEvent", type=kind, x=x, y=y, button="left", clickCount=1)

    def type(self, selector, text):
        """Puts a text into a field in place of what is there, as one types it."""
        self.run(f"(() => {{ const it = document.querySelector({json.dumps(selector)}); it.focus(); it.select(); }})()")
        self.call("Input.insertText", text=text)

    def text(self, selector):
        """What an element shows."""
        return self.run(f"document.querySelector({json.dumps(selector)}).innerText")
