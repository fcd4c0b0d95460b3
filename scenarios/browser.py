"""A headless Chromium that a test works by keys and by the mouse, over its DevTools protocol."""
import json
import os
import shutil
import subprocess
import time

from daemon_clients import TIME_LIMIT

PROGRAM = next((path for path in map(shutil.which, ("chromium", "chromium-browser", "google-chrome")) if path), None)
KEYS = {"Tab": (9, ""), "Enter": (13, "\r"), " ": (32, " "), "ArrowDown": (40, "")}


class Browser:
    """One page; `fields` are header fields of each request, and `names` lead to this machine."""

    def __init__(self, folder, fields, names, size=(1080, 900)):
        to_browser, from_browser = (os.path.join(folder, name) for name in ("to_browser", "from_browser"))
        for path in (to_browser, from_browser):
            os.mkfifo(path)
        rules = ",".join(f"MAP {name} 127.0.0.1" for name in names)
        words = [PROGRAM, "--headless=new", "--no-sandbox", "--disable-gpu", "--remote-debugging-pipe",
                 f"--user-data-dir={folder}/profile", f"--window-size={size[0]},{size[1]}", f"--host-resolver-rules={rules}"]
        self.process = subprocess.Popen(["sh", "-c", f'exec "$@" 3<{to_browser} 4>{from_browser}', "sh", *words],
                                        stdout=subprocess.DEVNULL, stderr=subprocess.DEVNULL)
        self.sending = open(to_browser, "wb", buffering=0)
        self.taking = open(from_browser, "rb")
        self.number = 0
        self.session = {}
        target = self.call("Target.createTarget", url="about:blank")["targetId"]
        self.session = {"sessionId": self.call("Target.attachToTarget", targetId=target, flatten=True)["sessionId"]}
        self.call("Network.enable")
        self.call("Network.setExtraHTTPHeaders", headers=fields)

    def __enter__(self):
        return self

    def __exit__(self, *_):
        self.session = {}
        self.call("Browser.close")
        self.process.wait(TIME_LIMIT)

    def call(self, method, **parameters):
        """What the browser answers to a call; its reports in between are passed over."""
        self.number += 1
        call = {"id": self.number, "method": method, "params": parameters, **self.session}
        self.sending.write(json.dumps(call).encode() + b"\0")
        while True:
            message = b""
            while not message.endswith(b"\0"):
                piece = self.taking.read(1)
                if not piece:
                    raise OSError("the browser has ended")
                message += piece
            answer = json.loads(message[:-1])
            if answer.get("id") == self.number:
                return answer["result"] if "result" in answer else answer

    def value(self, expression):
        """The value of an expression of JavaScript; none while another page is loaded."""
        return self.call("Runtime.evaluate", expression=expression).get("result", {}).get("value")

    def until(self, expression):
        """Waits until an expression is true; whether it is."""
        end = time.monotonic() + TIME_LIMIT
        while not self.value(expression) and time.monotonic() < end:
            time.sleep(0.05)
        return bool(self.value(expression))

    def has(self, text):
        return self.until(f"document.readyState == 'complete' && document.body.innerText.includes({json.dumps(text)})")

    def open(self, url):
        self.call("Page.navigate", url=url)
        return self.until(f"document.readyState == 'complete' && location.href.startsWith({json.dumps(url)})")

    def press(self, key):
        code, text = KEYS[key]
        named = {"key": key, "code": {" ": "Space"}.get(key, key), "windowsVirtualKeyCode": code}
        self.call("Input.dispatchKeyEvent", type="keyDown", text=text, **named)
        self.call("Input.dispatchKeyEvent", type="keyUp", **named)

    def write(self, text):
        self.call("Input.insertText", text=text)

    def tab_to(self, selector):
        """Presses the tabulator until such an element has the focus; whether one has."""
        is_there = f"document.activeElement.matches({json.dumps(selector)})"
        for _ in range(200):
            if self.value(is_there):
                return True
            self.press("Tab")
        return False

    def click(self, selector):
        """Clicks into the middle of an element; whether it, or a part of it, lies there."""
        named = json.dumps(selector)
        spot = self.value(f"(e => {{ e.scrollIntoView({{block: 'center'}}); const r = e.getBoundingClientRect(); "
                          "return JSON.stringify([r.x + r.width / 2, r.y + r.height / 2]) })"
                          f"(document.querySelector({named}))")
        x, y = json.loads(spot)
        is_there = self.value(f"document.querySelector({named}).contains(document.elementFromPoint({x}, {y}))")
        for kind in ("mousePressed", "mouseReleased"):
            self.call("Input.dispatchMouseEvent", type=kind, x=x, y=y, button="left", clickCount=1)
        return is_there
