"""What page_browser.py and desk_page.py stand on: programs that it starts, a headless Chromium and what is seen in it, and packets.

Chromium and its driver (Debian's chromium and chromium-driver) are spoken to by the WebDriver protocol, so no library is needed.
"""
import base64
import json
import shutil
import subprocess
import time
import urllib.request

import e131

DRIVER = e131.free_tcp_port()
started = []


def verdict(name, is_well, why=""):
    print(f"ok browser: {name}" if is_well else f"not ok browser: {name}: {why}", flush=True)


def start(*words, **how):
    process = subprocess.Popen(words, **{"stdin": subprocess.PIPE, "stdout": subprocess.DEVNULL, "stderr": subprocess.DEVNULL, **how})
    started.append(process)
    return process


class Browser:
    """A session of headless Chromium."""

    def __init__(self, pictures, *arguments):
        self.pictures = pictures
        start("chromedriver", f"--port={DRIVER}")
        for _ in range(600):
            try:
                self.call("GET", "/status")
                break
            except OSError:
                time.sleep(0.1)
        options = {"args": ["--headless=new", "--no-sandbox", "--disable-gpu", "--hide-scrollbars", *arguments], "binary": shutil.which("chromium")}
        wanted = {"browserName": "chrome", "goog:chromeOptions": options, "goog:loggingPrefs": {"browser": "ALL"}}
        self.session = f"/session/{self.call('POST', '/session', {'capabilities': {'alwaysMatch': wanted}})['sessionId']}"

    def call(self, method, path, body=None):
        data = None if body is None else json.dumps(body).encode()
        request = urllib.request.Request(f"http://127.0.0.1:{DRIVER}{path}", data, {"Content-Type": "application/json"}, method=method)
        with urllib.request.urlopen(request, timeout=120) as answer:
            return json.loads(answer.read())["value"]

    def ask(self, method, path, body=None):
        return self.call(method, self.session + path, body)

    def open(self, url):
        self.ask("POST", "/url", {"url": url})

    def js(self, code):
        return self.ask("POST", "/execute/sync", {"script": code, "args": []})

    def size(self, width, height):
        self.ask("POST", "/window/rect", {"width": width, "height": height})

    def view(self, width, height):
        """Gives the page so many pixels, also fewer than a window may have; by 0 and 0 those of its window again."""
        sized = {"cmd": "Emulation.setDeviceMetricsOverride", "params": {"width": width, "height": height, "deviceScaleFactor": 1, "mobile": False}}
        self.ask("POST", "/goog/cdp/execute", sized if width else {"cmd": "Emulation.clearDeviceMetricsOverride", "params": {}})

    def press(self, *keys):
        actions = [{"type": kind, "value": key} for key in keys for kind in ("keyDown", "keyUp")]
        self.ask("POST", "/actions", {"actions": [{"type": "key", "id": "keys", "actions": actions}]})

    def picture(self, name):
        self.js("scrollTo(0, 0)")
        if self.pictures:
            with open(f"{self.pictures}/{name}.png", "wb") as out:
                out.write(base64.b64decode(self.ask("GET", "/screenshot")))

    def until(self, code, seconds):
        """The seconds until an expression holds, or None where it doesn't in so many."""
        begin = time.monotonic()
        while time.monotonic() - begin < seconds:
            if self.js(f"return {code}"):
                return time.monotonic() - begin
            time.sleep(0.02)
        return None


IS_SEEN = """((item) => {
  const box = item.getBoundingClientRect(), middle = (box.left + box.right) / 2;
  return [box.top + 1, box.bottom - 1].every((y) => item.contains(document.elementFromPoint(middle, y)));
})"""


def are_seen(what, count):
    """That the first so many of these are seen as a whole: none is beyond the window's edge, or its block's, or covered."""
    return f"((items) => items.length == {count} && items.every({IS_SEEN}))([...document.querySelectorAll('{what}')].slice(0, {count}))"


def packet(universe, number, name=b"Crowd", options=0):
    """A data packet of 512 slots, all at its number."""
    return e131.data(universe, number, bytes([number % 256]) * 512, name=name, options=options)
