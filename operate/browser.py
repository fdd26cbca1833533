"""Chromium without a window, which is driven over a pipe by the DevTools protocol: pages, clicks, keys and screenshots."""

import base64
import contextlib
import json
import os
import select
import signal
import subprocess
import tempfile
import time

from stand import PASSWORD, SECONDS, USER, find


class Browser:
    """A browser with one page. Every name is on this machine, whatever the certificate."""

    def __init__(self, stack):
        # Its processes may still write there for a moment after it has ended.
        profile = stack.enter_context(tempfile.TemporaryDirectory(prefix="filehost-browser-", ignore_cleanup_errors=True))
        to_browser, from_us = os.pipe()
        from_browser, to_us = os.pipe()
        words = [
            find("chromium"), "--headless", "--no-sandbox", "--disable-gpu", "--hide-scrollbars", "--remote-debugging-pipe", "--ignore-certificate-errors",
            "--host-resolver-rules=MAP * 127.0.0.1", "--no-first-run", "--disable-background-networking", f"--user-data-dir={profile}", "about:blank",
        ]
        # The browser reads commands from the descriptor 3, and writes to 4.
        shell = ["bash", "-c", f'exec "$@" 3<&{to_browser} 4>&{to_us}', "browser", *words]
        self.started = subprocess.Popen(shell, pass_fds=(to_browser, to_us), stdin=subprocess.DEVNULL, stdout=subprocess.DEVNULL, stderr=subprocess.DEVNULL,
                                        start_new_session=True)
        os.close(to_browser)
        os.close(to_us)
        self.out, self.come, self.rest, self.count = from_us, from_browser, b"", 0
        stack.callback(self.end)
        self.session, self.said, self.faults = None, [], []
        target = self.call("Target.createTarget", url="about:blank")["targetId"]
        self.session = self.call("Target.attachToTarget", targetId=target, flatten=True)["sessionId"]
        for domain in ("Page", "Runtime", "Log", "Network"):
            self.call(f"{domain}.enable")
        self.call("Fetch.enable", handleAuthRequests=True)

    def end(self):
        """Ends it with all that it has started."""
        with contextlib.suppress(ProcessLookupError):
            os.killpg(self.started.pid, signal.SIGKILL)
        self.started.wait()
        for one in (self.out, self.come):
            with contextlib.suppress(OSError):
                os.close(one)

    def message(self, seconds=SECONDS):
        """The next message of the browser, or None if none comes in this time."""
        end = time.monotonic() + seconds
        while b"\0" not in self.rest:
            if not select.select([self.come], [], [], max(0, end - time.monotonic()))[0]:
                return None
            came = os.read(self.come, 1_000_000)
            assert came, "the browser ended"
            self.rest += came
        one, _, self.rest = self.rest.partition(b"\0")
        return json.loads(one)

    def send(self, method, **words):
        self.count += 1
        command = {"id": self.count, "method": method, "params": words, **({"sessionId": self.session} if self.session else {})}
        whole = json.dumps(command).encode() + b"\0"
        while whole:
            whole = whole[os.write(self.out, whole):]
        return self.count

    def call(self, method, **words):
        number = self.send(method, **words)
        while (came := self.message()) is not None:
            if came.get("id") == number:
                assert "error" not in came, (method, words, came["error"])
                return came["result"]
            self.take(came)
        raise AssertionError(f"{method} is not answered")

    def take(self, event):
        """What the browser tells unasked: it wants a login, a request goes on, or a page has a fault."""
        method, told = event.get("method"), event.get("params", {})
        if method == "Fetch.authRequired":
            login = {"response": "ProvideCredentials", "username": USER, "password": PASSWORD}
            self.send("Fetch.continueWithAuth", requestId=told["requestId"], authChallengeResponse=login)
        elif method == "Fetch.requestPaused":
            self.send("Fetch.continueRequest", requestId=told["requestId"])
        elif method == "Runtime.exceptionThrown":
            self.faults.append(told["exceptionDetails"].get("exception", {}).get("description", "a fault"))
        elif method == "Log.entryAdded" and told["entry"]["level"] == "error":
            self.said.append(told["entry"]["text"])

    def rest_for(self, seconds):
        """Lets the page go on for so long."""
        end = time.monotonic() + seconds
        while (left := end - time.monotonic()) > 0 and (came := self.message(left)):
            self.take(came)

    def value(self, script):
        """What a script gives."""
        told = self.call("Runtime.evaluate", expression=script, returnByValue=True, awaitPromise=True)
        assert "exceptionDetails" not in told, (script, told["exceptionDetails"])
        return told["result"].get("value")

    def wait_until(self, script, seconds=SECONDS):
        """Waits until a script gives something true, and returns that."""
        end = time.monotonic() + seconds
        while not (found := self.value(script)):
            assert time.monotonic() < end, f"{script} doesn't come true; the page says: {self.value('document.body.innerText')}; {self.faults} {self.said}"
            self.rest_for(0.1)
        return found

    def open(self, address):
        self.call("Page.navigate", url=address)
        self.wait_until("document.readyState == 'complete'")

    def size(self, width, height, dark=False):
        self.call("Emulation.setDeviceMetricsOverride", width=width, height=height, deviceScaleFactor=1, mobile=width < 500)
        self.call("Emulation.setEmulatedMedia", features=[{"name": "prefers-color-scheme", "value": "dark" if dark else "light"}])
        self.rest_for(0.3)

    def click(self, selector):
        """A click of the mouse at the middle of an element, which has to be there, in view and on top."""
        place = json.dumps(selector)
        at = self.wait_until(f"""(() => {{
          const one = document.querySelector({place});
          if (!one || one.disabled) return null;
          one.scrollIntoView({{ block: "center", behavior: "instant" }});
          const box = one.getBoundingClientRect(), x = box.x + box.width / 2, y = box.y + box.height / 2;
          return one.contains(document.elementFromPoint(x, y)) ? [x, y] : null;
        }})()""")
        for kind in ("mousePressed", "mouseReleased"):
            self.call("Input.dispatchMouseEvent", type=kind, x=at[0], y=at[1], button="left", clickCount=1)
        self.rest_for(0.1)

    def press(self, *keys):
        """Presses keys, such as Tab, Enter or Escape."""
        codes = {"Tab": 9, "Enter": 13, "Escape": 27, "ArrowUp": 38, "ArrowDown": 40, "Space": 32}
        for key in keys:
            text = {"Enter": "\r", "Space": " "}.get(key)
            words = {"key": " " if key == "Space" else key, "code": key, "windowsVirtualKeyCode": codes[key]}
            self.call("Input.dispatchKeyEvent", type="keyDown", **words, **({"text": text} if text else {}))
            self.call("Input.dispatchKeyEvent", type="keyUp", **words)
        self.rest_for(0.1)

    def type(self, text):
        self.call("Input.insertText", text=text)

    def picture(self, file):
        """A screenshot of the whole page."""
        told = self.call("Page.captureScreenshot", format="png", captureBeyondViewport=True)
        file.write_bytes(base64.b64decode(told["data"]))
