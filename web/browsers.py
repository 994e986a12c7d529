"""Headless browsers for web/test: Chromium by the DevTools protocol, Firefox by WebDriver BiDi,
both over a WebSocket. Python's own library alone."""
import base64
import json
import os
import re
import shutil
import socket
import subprocess
import tempfile
import threading
import urllib.request


class WebSocket:
    """A WebSocket on this machine, for texts."""

    def __init__(self, url):
        host, port, path = re.fullmatch(r"ws://([^:/]+):(\d+)(/.*)", url).groups()
        self.link = socket.create_connection((host, int(port)), timeout=600)
        self.rest = b""
        key = base64.b64encode(os.urandom(16)).decode()
        head = (
            f"GET {path} HTTP/1.1\nHost: {host}:{port}\nUpgrade: websocket\nConnection: Upgrade\n"
        )
        head += f"Sec-WebSocket-Key: {key}\nSec-WebSocket-Version: 13\n\n"
        self.link.sendall(head.replace("\n", "\r\n").encode())
        while b"\r\n\r\n" not in self.rest:
            self.rest += self.link.recv(65536)
        head, self.rest = self.rest.split(b"\r\n\r\n", 1)
        if b" 101 " not in head.split(b"\r\n")[0]:
            raise OSError(f"no WebSocket: {head!r}")

    def send(self, text):
        data = text.encode()
        size = len(data)
        told, width = (size, 0) if size < 126 else (126, 2) if size < 65536 else (127, 8)
        length = size.to_bytes(width, "big") if width else b""
        # A mask of zeros leaves what it masks.
        self.link.sendall(bytes([0x81, 0x80 | told]) + length + bytes(4) + data)

    def take(self, count):
        while len(self.rest) < count:
            more = self.link.recv(1 << 20)
            if not more:
                raise OSError("the browser closed the WebSocket")
            self.rest += more
        taken, self.rest = self.rest[:count], self.rest[count:]
        return taken

    def receive(self):
        """The next text."""
        text = b""
        while True:
            first, second = self.take(2)
            length = second & 127
            if length > 125:
                length = int.from_bytes(self.take(2 if length == 126 else 8), "big")
            data = self.take(length)
            if first & 15 in (0, 1):
                text += data
                if first & 128:
                    return text.decode()


class Browser:
    """What web/test asks of a browser; `command` and `evaluate` are the protocol's matter."""

    def __init__(self, program, arguments, says):
        self.folder = tempfile.mkdtemp(prefix="ee-page-")
        words = [program, *arguments.replace("FOLDER", self.folder).split()]
        quiet = {"stdin": subprocess.DEVNULL, "stdout": subprocess.DEVNULL}
        home = {**os.environ, "HOME": self.folder}
        self.process = subprocess.Popen(words, stderr=subprocess.PIPE, env=home, **quiet)
        self.address = self.heard(says)
        self.number = 0

    def heard(self, says):
        """Waits for the line that says where to connect; what comes behind it is dropped."""
        for line in self.process.stderr:
            found = re.search(says, line.decode(errors="replace"))
            if found:
                threading.Thread(target=self.process.stderr.read, daemon=True).start()
                return found[1]
        raise OSError("the browser ended at once")

    def command(self, method, **parameters):
        self.number += 1
        self.socket.send(json.dumps({"id": self.number, "method": method, "params": parameters}))
        while True:
            said = json.loads(self.socket.receive())
            if said.get("id") == self.number:
                if "error" in said:
                    raise OSError(f"{method}: {said}")
                return said["result"]

    def enter(self, field, text):
        """Types a text in place of what stands in a field."""
        self.evaluate(
            f"document.getElementById('{field}').focus(); document.activeElement.select(); ''"
        )
        self.type(text)

    def push(self, button):
        """Goes to a button, and presses it."""
        focus = f"document.getElementById('{button}').focus(); document.activeElement.id"
        if self.evaluate(focus) != button:
            raise OSError(f"the button {button} can't be pressed")
        self.press(" ")

    def settle(self):
        """Waits until what was changed is drawn."""
        self.evaluate(
            "new Promise((done) => requestAnimationFrame(() => requestAnimationFrame(() => done(''))))"
        )

    def close(self):
        self.process.terminate()
        self.process.wait()
        shutil.rmtree(self.folder, ignore_errors=True)


class Chromium(Browser):
    programs = ["chromium", "chromium-browser", "google-chrome"]
    package = "chromium"

    def __init__(self, program):
        arguments = "--headless=new --no-sandbox --disable-gpu --hide-scrollbars"
        arguments += " --remote-debugging-port=0 --user-data-dir=FOLDER about:blank"
        super().__init__(program, arguments, r"DevTools listening on (ws://\S+)")
        port = re.search(r":(\d+)/", self.address)[1]
        with urllib.request.urlopen(f"http://127.0.0.1:{port}/json/list") as answer:
            target = next(it for it in json.load(answer) if it["type"] == "page")
        self.socket = WebSocket(target["webSocketDebuggerUrl"])

    def open(self, path):
        self.command("Page.navigate", url="file://" + path)

    def evaluate(self, expression):
        how = {"awaitPromise": True, "returnByValue": True}
        said = self.command("Runtime.evaluate", expression=expression, **how)
        if "exceptionDetails" in said:
            raise OSError(said["exceptionDetails"])
        return said["result"].get("value")

    def type(self, text):
        if text:
            self.command("Input.insertText", text=text)
        else:
            self.press("Delete")

    def press(self, key):
        text = {"Enter": "\r"}.get(key, key if len(key) == 1 else "")
        codes = {"Enter": 13, " ": 32, "Delete": 46, "ArrowRight": 39, "ArrowDown": 40}
        named = {"key": key, "code": key, "windowsVirtualKeyCode": codes.get(key, 0)}
        typed = {"text": text} if text else {}
        self.command("Input.dispatchKeyEvent", type="keyDown", **named, **typed)
        self.command("Input.dispatchKeyEvent", type="keyUp", **named)

    def resize(self, width, height):
        size = {"width": width, "height": height, "deviceScaleFactor": 1, "mobile": False}
        self.command("Emulation.setDeviceMetricsOverride", **size)
        self.settle()

    def picture(self, path, width, height, theme):
        """Writes what stands on the screen."""
        scheme = {"name": "prefers-color-scheme", "value": theme}
        self.command("Emulation.setEmulatedMedia", features=[scheme])
        self.resize(width, height)
        shot = self.command("Page.captureScreenshot", format="png")
        with open(path, "wb") as file:
            file.write(base64.b64decode(shot["data"]))


class Firefox(Browser):
    programs = ["firefox-esr", "firefox"]
    package = "firefox-esr"
    KEYS = {"Enter": "\ue006", "Delete": "\ue017", "ArrowRight": "\ue014", "ArrowDown": "\ue015"}

    def __init__(self, program):
        arguments = "--headless --no-remote --remote-debugging-port=0 --profile FOLDER about:blank"
        super().__init__(program, arguments, r"WebDriver BiDi listening on (ws://\S+)")
        self.socket = WebSocket(self.address + "/session")
        self.command("session.new", capabilities={})
        self.context = self.command("browsingContext.getTree")["contexts"][0]["context"]

    def open(self, path):
        at = {"context": self.context, "url": "file://" + path}
        self.command("browsingContext.navigate", wait="complete", **at)

    def evaluate(self, expression):
        where = {"target": {"context": self.context}, "awaitPromise": True}
        said = self.command("script.evaluate", expression=expression, **where)
        if said["type"] != "success":
            raise OSError(said)
        return said["result"].get("value")

    def type(self, text):
        # A key takes some milliseconds: what is long comes at once, as by pasting.
        if len(text) > 60:
            self.evaluate(f"document.execCommand('insertText', false, {json.dumps(text)}); ''")
        else:
            self.strike(list(text.replace("\n", self.KEYS["Enter"])) or [self.KEYS["Delete"]])

    def press(self, key):
        self.strike([self.KEYS.get(key, key)])

    def push(self, button):
        """Presses a button by the pointer: the window of a headless Firefox has no focus, and keys
        press none there. The button may still move when the pointer comes, while what was drawn
        settles: a press that missed is made again.
        """
        it = f"document.getElementById('{button}')"
        self.evaluate(
            f"window.wasPressed = ''; {it}.addEventListener('click', () => {{ window.wasPressed = 'yes'; }}, "
            "{ once: true, capture: true }); ''"
        )
        for _ in range(20):
            self.evaluate(f"{it}.scrollIntoView({{ block: 'center' }}); ''")
            self.settle()
            self.click(*self.middle(it))
            if self.evaluate("window.wasPressed") == "yes":
                return
        raise OSError(f"the button {button} can't be pressed")

    def middle(self, it):
        """The middle of what an expression gives, in the window."""
        place = self.evaluate(
            f"(() => {{ const box = {it}.getBoundingClientRect(); "
            "return `${Math.round(box.x + box.width / 2)} ${Math.round(box.y + box.height / 2)}`; })()"
        )
        return map(int, place.split())

    def perform(self, **actions):
        self.command("input.performActions", context=self.context, actions=[actions])

    def click(self, x, y):
        moves = [{"type": "pointerMove", "x": x, "y": y}]
        moves += [{"type": kind, "button": 0} for kind in ("pointerDown", "pointerUp")]
        parameters = {"pointerType": "mouse"}
        self.perform(type="pointer", id="mouse", parameters=parameters, actions=moves)

    def strike(self, keys):
        strokes = [{"type": kind, "value": key} for key in keys for kind in ("keyDown", "keyUp")]
        self.perform(type="key", id="keys", actions=strokes)

    def resize(self, width, height):
        size = {"width": width, "height": height}
        self.command("browsingContext.setViewport", context=self.context, viewport=size)
        self.settle()


def found(kind):
    """The program of a kind of browser, if it is installed."""
    return next(filter(None, map(shutil.which, kind.programs)), None)
